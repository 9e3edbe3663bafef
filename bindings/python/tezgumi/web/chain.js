// The chain of one round: where its elements stand, where they are decided to go, what moves, and the fence.

const MOST_MARKS = 300; // of more edges of blocks or stops than this each second, third .. is drawn
const CHAIN = { margin: { left: LEFT, right: 10 }, ruler: 18, strip: 34, band: 40, row: 17 };
let chain = null; // what is drawn
let chainPart = new Part(1, 1, () => undefined);

// The chain of a round, with where each element begins: by load, or each as wide as the others.
function chainOf(held, even) {
  const { run, decision } = held;
  const count = run.loads.length;
  const sums = runningSums(run.loads);
  const byCount = even || sums[count] === 0n;
  const starts = byCount ? Float64Array.from(sums.keys()) : plain(sums);
  const planned = decision?.planned.length === count ? decision.planned : null;
  const moving = new Float64Array(count + 1); // the width of what moves, before each element
  for (let i = 0; i < count; i++) {
    moving[i + 1] = moving[i] + (planned && planned[i] !== run.places[i] ? starts[i + 1] - starts[i] : 0);
  }
  const pes = Math.max(run.procs, decision?.pes ?? 1);
  return {
    run, decision, count, sums, starts, planned, moving, byCount, pes,
    scale: new PeColors(pes, true), named: new PeColors(pes, false), colors: null, legend: "",
    divided: decision !== null && dividesChain(decision, count),
  };
}

function dividesChain({ cuts, pes, names }, count) {
  return cuts.length === pes + 1 && cuts[0] === 0 && cuts[pes] === count && rises(cuts) && names.length === pes;
}

// The element at a point of the line.
function elementAt(starts, point) {
  let low = 0;
  let high = starts.length - 1;
  while (high - low > 1) {
    const middle = (low + high) >> 1;
    if (starts[middle] <= point) low = middle;
    else high = middle;
  }
  return low;
}

// Shows a chain: the same part of it as of the one before, where that had as many elements.
function showChain(held) {
  const before = chain;
  chain = chainOf(held, document.getElementById("chain-even").checked);
  const whole = chain.starts[chain.count] || 1;
  const [from, to] = before?.count === chain.count ? [chainPart.from, chainPart.to].map((at) => at / chainPart.whole) : [0, 1];
  chainPart = new Part(whole, whole / Math.max(chain.count, 1) / 20, drawChain);
  Object.assign(chainPart, { from: from * whole, to: to * whole });
  offerTable("blocks", () => blockTable(chain));
  offerTable("stops", () => stopTable(chain));
  offerTable("moves", () => moveTable(chain));
  drawChain();
}

function drawChain() {
  if (chain === null) return;
  const canvas = document.getElementById("chain-picture");
  const { margin, ruler, strip, band, row: high } = CHAIN;
  const fence = chain.decision?.stops.length > 0 && chain.count > 0 ? 3 * high + 8 : 0;
  const { context, width } = ready(canvas, ruler + strip + (chain.planned ? band + strip + fence : 0) + 14);
  const inner = width - margin.left - margin.right;
  const x = (point) => margin.left + ((point - chainPart.from) * inner) / (chainPart.to - chainPart.from);
  const view = { context, x, left: margin.left, right: margin.left + inner, inner, colors: pageColors() };
  if (chain.count === 0) return noteChain("There are no elements.");
  Object.assign(view, seen(view));
  view.every = everyMark(view);
  chooseColors(view);
  drawRuler(view);
  drawPlaces(view, chain.run.places, ruler, "stand on");
  if (chain.planned) {
    drawMoving(view, ruler + strip, band);
    drawPlaces(view, chain.planned, ruler + strip + band, "go to");
    if (chain.divided) drawBlocks(view, ruler + strip + band);
    if (fence) drawFence(view, ruler + 2 * strip + band + 4);
  }
  drawPartBar(context, chainPart, view.left, canvas.clientHeight - 6, inner, view.colors);
  noteSeen(view);
}

// The first and the last element that are seen, and whether each is wide enough to be drawn on its own.
function seen(view) {
  const first = elementAt(chain.starts, chainPart.from);
  const last = elementAt(chain.starts, chainPart.to * (1 - 1e-12));
  return { first, last, single: last - first < view.inner / 2 };
}

// Of the edges of blocks and the stops that are seen, each first, second, third .. is drawn.
function everyMark({ first, last }) {
  if (!chain.planned) return 1;
  const within = (marks) => marks.reduce((count, at, k) => count + (at >= first && at <= last && at !== marks[k - 1]), 0);
  return Math.max(1, Math.ceil(Math.max(within(chain.decision.cuts), within(chain.decision.stops)) / MOST_MARKS));
}

// The PEs that are seen have each a color and a pattern of its own, where they are few enough for that.
function chooseColors({ first, last }) {
  const pes = new Set();
  for (let i = first; i <= last && pes.size <= MOST_NAMED; i++) {
    pes.add(chain.run.places[i]);
    if (chain.planned) pes.add(chain.planned[i]);
  }
  const isFew = chain.pes <= MOST_NAMED || pes.size <= MOST_NAMED;
  chain.colors = isFew ? chain.named : chain.scale;
  const all = Array.from({ length: chain.pes }, (_, pe) => pe);
  drawPeLegend(chain, chain.pes <= MOST_NAMED ? all : [...pes].sort((a, b) => a - b));
}

function noteSeen(view) {
  const parts = [];
  if (!view.single) {
    parts.push("Elements narrower than a dot are drawn together, in the color of the one in its middle: go nearer to see each.");
  }
  if (view.every > 1) {
    parts.push(`Of the edges of blocks and the stops one in ${told(view.every)} is drawn.`);
  }
  if (chain.byCount && chain.sums[chain.count] === 0n) parts.push("No element has any load, so all are as wide.");
  if (chain.decision === null) parts.push("There is no decision on this round.");
  else if (!chain.divided) parts.push("The cuts of this decision do not divide the chain, so no blocks are drawn.");
  noteChain(parts.join(" "));
}

function noteChain(text) {
  const note = document.getElementById("chain-note");
  note.textContent = text;
  note.hidden = text === "";
}

function drawRuler({ context, x, first, last, inner, colors }) {
  context.fillStyle = colors.quiet;
  context.textAlign = "right";
  context.fillText("element", LEFT - 6, 8);
  context.textAlign = "center";
  let free = LEFT;
  for (const i of wholeTicks(first, last, inner / (14 + 8 * String(last).length))) {
    const middle = (x(chain.starts[i]) + x(chain.starts[i + 1])) / 2;
    const half = context.measureText(told(i)).width / 2;
    if (middle - half < free || middle + half > LEFT + inner + 8) continue;
    context.fillText(told(i), middle, 8);
    free = middle + half + 8;
  }
}

// A strip in the colors of the elements' PEs: each run of elements of one PE is filled at once.
function drawPlaces(view, places, top, word) {
  const { context, x, left, right, colors } = view;
  context.fillStyle = colors.quiet;
  context.textAlign = "right";
  context.fillText(word, LEFT - 6, top + CHAIN.strip / 2);
  for (const [from, to, pe] of view.single ? placeRuns(view, places) : dotRuns(view, places)) {
    const begin = Math.max(from, left);
    const end = Math.min(to, right);
    context.fillStyle = chain.colors.fill(context, pe);
    context.fillRect(begin, top, Math.max(end - begin, 0.5), CHAIN.strip);
    labelRun(context, `PE ${pe}`, begin, end, top, pe);
  }
  if (view.single) drawElementEdges(view, top);
}

// Runs of elements of one PE, as begin and end in the picture and the PE.
function placeRuns({ x, first, last }, places) {
  const runs = [];
  for (let i = first; i <= last; i++) {
    const run = runs[runs.length - 1];
    if (run && run[2] === places[i]) run[1] = x(chain.starts[i + 1]);
    else runs.push([x(chain.starts[i]), x(chain.starts[i + 1]), places[i]]);
  }
  return runs;
}

// The same dot by dot, where elements are narrower than a dot.
function dotRuns({ left, right, inner }, places) {
  const runs = [];
  const step = (chainPart.to - chainPart.from) / inner;
  for (let dot = left; dot < right; dot++) {
    const pe = places[elementAt(chain.starts, chainPart.from + (dot - left + 0.5) * step)];
    const run = runs[runs.length - 1];
    if (run && run[2] === pe) run[1] = dot + 1;
    else runs.push([dot, dot + 1, pe]);
  }
  return runs;
}

function labelRun(context, text, begin, end, top, pe) {
  if (!fits(context, text, end - begin - 6)) return;
  const wide = context.measureText(text).width;
  const middle = (begin + end) / 2;
  context.fillStyle = chain.colors.color(pe);
  context.fillRect(middle - wide / 2 - 2, top + 9, wide + 4, 16);
  context.fillStyle = chain.colors.ink(pe);
  context.textAlign = "center";
  context.fillText(text, middle, top + CHAIN.strip / 2);
}

function drawElementEdges({ context, x, first, last, left, right, colors }, top) {
  if (last - first > (right - left) / 5) return;
  context.fillStyle = colors.paper;
  context.globalAlpha = 0.55;
  for (let i = first + 1; i <= last; i++) context.fillRect(x(chain.starts[i]) - 0.5, top, 1, CHAIN.strip);
  context.globalAlpha = 1;
}

// What moves: of single elements a band each, and else in each dot the share that moves, in the colors of the element in
// its middle.
function drawMoving(view, top, band) {
  const { context, left, right, inner, colors } = view;
  if (view.single) return drawBands(view, top, band);
  const step = (chainPart.to - chainPart.from) / inner;
  for (let dot = left; dot < right; dot++) {
    const from = chainPart.from + (dot - left) * step;
    const share = (movingBefore(from + step) - movingBefore(from)) / step;
    if (share < 0.001) continue;
    const i = elementAt(chain.starts, from + step / 2);
    const high = Math.max(share * band, 2);
    const known = chain.planned[i] !== chain.run.places[i];
    context.fillStyle = known ? chain.colors.color(chain.run.places[i]) : colors.quiet;
    context.fillRect(dot, top + (band - high) / 2, 1, high / 2);
    if (known) context.fillStyle = chain.colors.color(chain.planned[i]);
    context.fillRect(dot, top + band / 2, 1, high / 2);
  }
}

function movingBefore(point) {
  const i = elementAt(chain.starts, point);
  const wide = chain.starts[i + 1] - chain.starts[i];
  return chain.moving[i] + (wide ? ((point - chain.starts[i]) / wide) * (chain.moving[i + 1] - chain.moving[i]) : 0);
}

function drawBands({ context, x, first, last, left, right, colors }, top, band) {
  for (let i = first; i <= last; i++) {
    if (chain.planned[i] === chain.run.places[i]) continue;
    const begin = Math.max(x(chain.starts[i]), left);
    const end = Math.min(Math.max(x(chain.starts[i + 1]), begin + 1), right);
    const shade = context.createLinearGradient(0, top, 0, top + band);
    shade.addColorStop(0.25, chain.colors.color(chain.run.places[i]));
    shade.addColorStop(0.75, chain.colors.color(chain.planned[i]));
    context.fillStyle = shade;
    context.fillRect(begin, top, Math.max(end - begin - 1, 1), band);
    if (end - begin >= 10) drawArrowHead(context, (begin + end) / 2, top + band / 2, colors);
  }
}

function drawArrowHead(context, x, y, colors) {
  context.beginPath();
  context.moveTo(x - 5, y - 4);
  context.lineTo(x + 5, y - 4);
  context.lineTo(x, y + 5);
  context.closePath();
  context.fillStyle = colors.paper;
  context.strokeStyle = colors.ink;
  context.fill();
  context.stroke();
}

// The edges of the blocks, and those that are above the limit.
function drawBlocks({ context, x, left, right, colors, every }, top) {
  const { cuts, bottleneck, pes } = chain.decision;
  const limit = chain.decision.limit ?? bottleneck;
  for (let b = 0; b < pes; b++) {
    const begin = x(chain.starts[cuts[b]]);
    const end = x(chain.starts[cuts[b + 1]]);
    if (end < left || begin > right) continue;
    context.fillStyle = colors.ink;
    if (b > 0 && b % every === 0 && begin >= left) context.fillRect(begin - 0.75, top - 3, 1.5, CHAIN.strip + 6);
    if (chain.sums[cuts[b + 1]] - chain.sums[cuts[b]] > limit) frameBad(context, begin, end, top, CHAIN.strip);
  }
}

function frameBad(context, begin, end, top, height) {
  context.strokeStyle = getComputedStyle(document.documentElement).getPropertyValue("--bad").trim();
  context.lineWidth = 3;
  context.strokeRect(begin, top, end - begin, height);
  context.lineWidth = 1;
}

// The load that the fence proves to be least: of a decision within a tolerance it is below its own bottleneck.
const leastOf = (decision) => (decision.near ? decision.least : decision.bottleneck);

// The stops, each a triangle below its element, and between two of them a bracket with what lies there; of very many stops the
// brackets alone that have too little in them.
function drawFence({ context, x, left, right, colors, every }, top) {
  const { stops } = chain.decision;
  const bottleneck = leastOf(chain.decision);
  context.fillStyle = colors.quiet;
  context.textAlign = "right";
  context.fillText("fence", LEFT - 6, top + 6);
  const inside = Array.from(stops, (stop) => stop < chain.count);
  for (let k = 0; k < stops.length; k++) {
    if (inside[k] && k % every === 0) {
      drawStop(context, (x(chain.starts[stops[k]]) + x(chain.starts[stops[k] + 1])) / 2, top, left, right, colors);
    }
    if (k === 0 || !inside[k] || !inside[k - 1] || stops[k - 1] > stops[k]) continue;
    const weight = chain.sums[stops[k] + 1] - chain.sums[stops[k - 1]];
    const isLight = weight < bottleneck;
    if (every > 1 && !isLight) continue;
    const [begin, end] = [x(chain.starts[stops[k - 1]]), x(chain.starts[stops[k] + 1])];
    drawBracket(context, begin, end, top + 14 + (k % 2) * CHAIN.row, weight, isLight, { left, right, colors });
  }
}

function drawStop(context, middle, top, left, right, colors) {
  if (middle < left || middle > right) return;
  context.beginPath();
  context.moveTo(middle, top);
  context.lineTo(middle - 4, top + 8);
  context.lineTo(middle + 4, top + 8);
  context.fillStyle = colors.ink;
  context.fill();
}

function drawBracket(context, begin, end, y, weight, isLight, { left, right, colors }) {
  if (end < left || begin > right) return;
  const from = Math.max(begin, left);
  const to = Math.min(end, right);
  context.strokeStyle = isLight ? "#d33b1d" : colors.quiet;
  context.lineWidth = isLight ? 3 : 1;
  context.beginPath();
  if (begin >= left) context.moveTo(from + 0.5, y - 4);
  context.lineTo(from + 0.5, y + 5);
  context.lineTo(to - 0.5, y + 5);
  if (end <= right) context.lineTo(to - 0.5, y - 4);
  context.stroke();
  context.lineWidth = 1;
  const text = told(weight);
  context.textAlign = "center";
  if (!fits(context, text, to - from - 6)) return;
  context.fillStyle = colors.paper;
  context.fillRect((from + to) / 2 - context.measureText(text).width / 2 - 3, y - 3, context.measureText(text).width + 6, 14);
  context.fillStyle = isLight ? "#d33b1d" : colors.ink;
  context.fillText(text, (from + to) / 2, y + 4);
}

function drawPeLegend({ colors, pes, legend }, named) {
  const row = document.getElementById("pe-legend");
  const wanted = colors.isScale ? "scale" : named.join();
  if (legend === wanted) return;
  chain.legend = wanted;
  if (colors.isScale) {
    const sample = document.createElement("canvas");
    const context = smallCanvas(sample, 160, 12);
    for (let x = 0; x < 160; x++) {
      context.fillStyle = colors.color((x / 159) * (pes - 1));
      context.fillRect(x, 0, 1.5, 12);
    }
    const label = labelled(sample, `PE ${pes - 1}`);
    label.prepend("PE 0");
    row.replaceChildren(label);
    return;
  }
  row.replaceChildren(...named.map((pe) => {
    const sample = document.createElement("canvas");
    const context = smallCanvas(sample, 22, 12);
    context.fillStyle = colors.fill(context, pe);
    context.fillRect(0, 0, 22, 12);
    return labelled(sample, `PE ${pe}`);
  }));
}

// What is told of the element at a point of the picture.
function tellElement(offset, width) {
  if (chain === null || chain.count === 0) return "";
  const share = (offset - LEFT) / (width - LEFT - CHAIN.margin.right);
  const i = elementAt(chain.starts, chainPart.from + Math.min(Math.max(share, 0), 1) * (chainPart.to - chainPart.from));
  const { run, planned } = chain;
  let text = `Element ${told(i)}: load ${told(run.loads[i])}, ${some(run.sizes[i], "byte", "bytes")}, on PE ${run.places[i]}`;
  if (planned) text += planned[i] === run.places[i] ? ", stays" : `, moves to PE ${planned[i]}`;
  return text + (chain.divided ? `; ${tellBlock(i)}.` : ".");
}

function tellBlock(i) {
  const { cuts, names } = chain.decision;
  const b = elementAt(Float64Array.from(cuts), i);
  const load = chain.sums[cuts[b + 1]] - chain.sums[cuts[b]];
  return `block ${b}, elements ${told(cuts[b])} to ${told(cuts[b + 1] - 1)}, load ${told(load)}, on PE ${names[b]}`;
}

// Goes to some elements, with as many again to each side.
function goToElements(from, end) {
  const [begin, close] = [chain.starts[Math.min(from, chain.count)], chain.starts[Math.min(end, chain.count)]];
  const wide = Math.max(close - begin, chainPart.least);
  chainPart.show(begin - wide, close + wide);
  document.getElementById("chain").scrollIntoView();
}

// Tables of the chain.

function blockTable({ decision, divided, sums, run }) {
  if (!divided) return table(["block"], [], "There are no blocks.");
  const { cuts, names } = decision;
  const rows = Array.from(names, (pe, b) => {
    let moves = 0;
    for (let i = cuts[b]; i < cuts[b + 1]; i++) if (run.places[i] !== pe) moves += run.sizes[i];
    return [b, cuts[b], cuts[b + 1], sums[cuts[b + 1]] - sums[cuts[b]], pe, moves];
  });
  return table(["block", "from element", "to, not included", "load", "goes to PE", "bytes that move"], rows);
}

function stopTable({ decision, sums, count }) {
  if (!decision || decision.stops.length === 0) return table(["stop"], [], "There is no fence.");
  const { stops } = decision;
  const bottleneck = leastOf(decision);
  const rows = [];
  for (let k = 1; k < stops.length; k++) {
    const [from, to] = [stops[k - 1], stops[k]];
    const weight = from <= to && to < count ? sums[to + 1] - sums[from] : null;
    rows.push([k, from, to, weight, bottleneck, weight !== null && weight >= bottleneck ? "yes" : "no"]);
  }
  return table(["stop", "from element", "to, included", "weigh", "least load", "as much"], rows);
}

function moveTable({ decision, run }) {
  const moves = decision?.moves ?? [];
  const rows = moves.map(([i, from, to]) => [i, run.loads[i] ?? null, run.sizes[i] ?? null, from, to]);
  return table(["element", "load", "bytes", "from PE", "to PE"], rows, rows.length === 0 ? "No element moves." : "");
}
