// The timeline of a trace: rows of slices, instants, arrows between rows, and counters.

const TIME = { margin: { left: 118, right: 10 }, ruler: 20, row: 40, counter: 34 };
const MOST_COUNTERS = 32;
const MOST_LETTERS = 400;
let trace = null;
let tracePart = new Part(1, 1, () => undefined);

async function readTrace() {
  const held = await columns("trace", page.trace.heads);
  const read = Object.fromEntries(held.map(([name, numbers]) => [name, plain(numbers)]));
  const ends = [read.slice_at.map((at, k) => at + read.slice_long[k]), read.instant_at, read.arrow_to,
    ...page.trace.counters.map((one) => one.at)];
  const whole = Math.max(ends.reduce((most, list) => list.reduce((a, b) => Math.max(a, b), most), 0), 1);
  const used = [...new Set(read.slice_element)].filter((k) => page.trace.names[k] !== "");
  const keys = used.length > 0 ? read.slice_element : read.slice_name;
  const kinds = rankKinds(keys);
  return { ...page.trace, ...read, whole, keys, kinds, byElement: used.length > 0, marks: rankKinds(read.instant_name) };
}

// Each text that stands for a color or a shape, with its place in the order in which they come first.
function rankKinds(keys) {
  const ranks = new Map();
  keys.forEach((key) => { if (!ranks.has(key)) ranks.set(key, ranks.size); });
  return ranks;
}

async function startTimeline() {
  if (!page.trace) return;
  document.getElementById("timeline").hidden = false;
  trace = await readTrace();
  tracePart = new Part(trace.whole, Math.min(trace.whole, 100), () => {
    drawTimeline();
    offerTable("timeline-events", eventTable);
  });
  document.getElementById("timeline-colors").textContent =
    `Colors are ${trace.byElement ? "elements" : "handlers"}; a line through all rows is something that all PEs took part in.`;
  for (const id of ["timeline-letters", "timeline-moves"]) document.getElementById(id).addEventListener("change", drawTimeline);
  handle(document.getElementById("timeline-picture"), () => tracePart, TIME.margin);
  zoomButtons("timeline", () => tracePart);
  offerTable("timeline-rows", timelineRowTable);
  offerTable("timeline-events", eventTable);
  drawTimelineLegend();
  drawTimeline();
}

const shownCounters = () => trace.counters.slice(0, MOST_COUNTERS);
const rowTop = (r) => TIME.ruler + r * TIME.row;
const kindColor = (rank) => PE_COLORS[rank % PE_COLORS.length];

function drawTimeline() {
  if (trace === null) return;
  const canvas = document.getElementById("timeline-picture");
  const rows = trace.rows.length;
  const { context, width } = ready(canvas, rowTop(rows) + shownCounters().length * TIME.counter + 16);
  const inner = width - TIME.margin.left - TIME.margin.right;
  const x = (at) => TIME.margin.left + ((at - tracePart.from) * inner) / (tracePart.to - tracePart.from);
  const view = { context, x, left: TIME.margin.left, right: TIME.margin.left + inner, inner, colors: pageColors() };
  drawTimes(view, canvas.clientHeight - 16);
  trace.rows.forEach((name, r) => labelRow(view, name, rowTop(r) + 13));
  drawSlices(view);
  shownCounters().forEach((one, k) => drawCounter(view, one, rowTop(rows) + k * TIME.counter));
  drawFlows(view);
  drawInstants(view, rowTop(rows));
  drawPartBar(context, tracePart, view.left, canvas.clientHeight - 6, inner, view.colors);
}

// A time in a unit that suits the part that is shown.
function toldTime(at, long = tracePart.to - tracePart.from) {
  const [unit, name] = [[1e9, "s"], [1e6, "ms"], [1e3, "µs"], [1, "ns"]].find(([one]) => long >= one) ?? [1, "ns"];
  return `${new Intl.NumberFormat(undefined, { maximumFractionDigits: 3 }).format(at / unit)} ${name}`;
}

function drawTimes({ context, x, inner, colors }, bottom) {
  const long = tracePart.to - tracePart.from;
  const step = ticks(long, Math.max(inner / 110, 1))[1] || long;
  context.textAlign = "center";
  for (let k = Math.ceil(tracePart.from / step); k * step <= tracePart.to; k++) {
    context.fillStyle = colors.faint;
    context.fillRect(Math.round(x(k * step)), 16, 1, bottom - 16);
    context.fillStyle = colors.quiet;
    const half = context.measureText(toldTime(k * step)).width / 2;
    context.fillText(toldTime(k * step), Math.min(x(k * step), TIME.margin.left + inner - half + 8), 8);
  }
}

function labelRow({ context, colors }, name, y) {
  context.fillStyle = colors.ink;
  context.textAlign = "right";
  context.fillText(shortened(context, name, TIME.margin.left - 12), TIME.margin.left - 8, y);
}

function shortened(context, text, width) {
  if (fits(context, text, width)) return text;
  let short = text;
  while (short.length > 1 && !fits(context, `${short}…`, width)) short = short.slice(0, -1);
  return `${short}…`;
}

// Slices in order of time: those narrower than a dot are drawn once for each dot.
function drawSlices({ context, x, left, right }) {
  const filled = new Float64Array(trace.rows.length).fill(-1);
  for (let k = 0; k < trace.slice_at.length; k++) {
    const begin = x(trace.slice_at[k]);
    const end = x(trace.slice_at[k] + trace.slice_long[k]);
    const r = trace.slice_row[k];
    if (end < left || begin > right || (end - begin < 1 && end <= filled[r])) continue;
    const from = Math.max(begin, left);
    const wide = Math.max(Math.min(end, right) - from, 1);
    const rank = trace.kinds.get(trace.keys[k]);
    context.fillStyle = kindColor(rank);
    context.fillRect(from, rowTop(r) + 3, wide > 3 ? wide - 0.7 : wide, 20);
    filled[r] = from + wide;
    const name = trace.names[trace.slice_name[k]];
    if (wide < 24 || !fits(context, name, wide - 6)) continue;
    context.fillStyle = luminance(hexParts(kindColor(rank))) < 0.18 ? "#ffffff" : "#000000";
    context.textAlign = "left";
    context.fillText(name, from + 4, rowTop(r) + 13);
  }
}

function drawFlows({ context, x, left, right, colors }) {
  const all = Array.from(trace.arrow_from.keys()).filter((k) => x(trace.arrow_to[k]) >= left && x(trace.arrow_from[k]) <= right);
  const letters = all.filter((k) => trace.arrow_moves[k] === 0);
  const moves = all.filter((k) => trace.arrow_moves[k] === 1);
  const isOn = (id) => document.getElementById(id).checked;
  noteTrace(isOn("timeline-letters") && letters.length > MOST_LETTERS ? letters.length : 0);
  context.save();
  context.beginPath();
  context.rect(left, 0, right - left, 1e5);
  context.clip();
  for (const k of [
    ...(isOn("timeline-letters") && letters.length <= MOST_LETTERS ? letters : []), ...(isOn("timeline-moves") ? moves : [])]) {
    const [y1, y2] = [trace.arrow_from_row[k], trace.arrow_to_row[k]].map((r) => rowTop(r) + 26);
    drawFlow(context, { x1: x(trace.arrow_from[k]), y1, x2: x(trace.arrow_to[k]), y2 }, trace.arrow_moves[k] === 1, colors);
  }
  context.restore();
}

function drawFlow(context, { x1, y1, x2, y2 }, moves, colors) {
  const bend = Math.max((x2 - x1) / 2, 8);
  const sag = y1 === y2 ? 12 : 0; // within a row it hangs below the handlers
  for (const [color, width] of [[colors.paper, moves ? 5 : 2.6], [moves ? colors.measured : colors.ink, moves ? 2.6 : 1]]) {
    context.strokeStyle = color;
    context.lineWidth = width;
    context.beginPath();
    context.moveTo(x1, y1);
    context.bezierCurveTo(x1 + bend, y1 + sag, x2 - bend, y2 + sag, x2, y2);
    context.stroke();
  }
  context.fillStyle = moves ? colors.measured : colors.ink;
  context.beginPath();
  context.moveTo(x2 + 1, y2);
  context.lineTo(x2 - 6, y2 - 4);
  context.lineTo(x2 - 6, y2 + 4);
  context.fill();
  context.lineWidth = 1;
}

// An instant of all rows is a line; one of a row is a mark on its lower edge.
function drawInstants({ context, x, left, right, colors }, bottom) {
  for (let k = 0; k < trace.instant_at.length; k++) {
    const at = x(trace.instant_at[k]);
    if (at < left || at > right) continue;
    const rank = trace.marks.get(trace.instant_name[k]);
    if (trace.instant_whole[k]) {
      context.fillStyle = colors.mark;
      context.fillRect(at - 0.75, TIME.ruler - 3, 1.5, bottom - TIME.ruler + 3);
      drawMark(context, rank, at, TIME.ruler - 2, colors);
    } else {
      drawMark(context, rank, at, rowTop(trace.instant_row[k]) + 13, colors);
    }
  }
}

// A shape for each kind of instant: a disc, a square, a triangle, a diamond, a triangle that stands on its point.
const MARKS = [
  null, [[-4, -4], [4, -4], [4, 4], [-4, 4]], [[0, -5], [5, 4], [-5, 4]], [[0, -5], [5, 0], [0, 5], [-5, 0]],
  [[-5, -4], [5, -4], [0, 5]]];

function drawMark(context, rank, x, y, colors) {
  const points = MARKS[rank % MARKS.length];
  context.beginPath();
  if (points === null) context.arc(x, y, 4, 0, 7);
  else points.forEach(([dx, dy], k) => (k === 0 ? context.moveTo(x + dx, y + dy) : context.lineTo(x + dx, y + dy)));
  context.closePath();
  context.fillStyle = colors.mark;
  context.strokeStyle = colors.paper;
  context.lineWidth = 1.5;
  context.fill();
  context.stroke();
  context.lineWidth = 1;
}

// Counters that count the same, as the loads of all PEs, have one scale: those of one name, or of one series that has a name.
function greatestValue({ name, series }) {
  const isAlike = (one) => one.name === name || (one.series === series && series !== "value");
  const values = trace.counters.filter(isAlike).flatMap((one) => one.values);
  return values.reduce((a, b) => Math.max(a, b), 0) || 1;
}

// The name of a counter, with its series where the name does not say it.
function counterLabel({ name, series }) {
  return series === "value" || name.split(" ").includes(series) ? name : `${name} ${series}`;
}

// A counter as steps: its value stays until the next one.
function drawCounter({ context, x, left, right, colors }, one, top) {
  const most = greatestValue(one);
  labelRow({ context, colors }, counterLabel(one), top + TIME.counter / 2);
  const high = (value) => (Math.max(value, 0) / most) * (TIME.counter - 8);
  one.at.forEach((at, k) => {
    const begin = Math.max(x(at), left);
    const end = Math.min(x(one.at[k + 1] ?? trace.whole), right);
    if (end <= begin) return;
    context.fillStyle = colors.decided;
    context.fillRect(begin, top + TIME.counter - 3 - high(one.values[k]), end - begin, high(one.values[k]));
    if (!fits(context, toldFew(one.values[k]), end - begin - 8)) return;
    const inside = high(one.values[k]) > 16;
    context.fillStyle = inside ? colors.paper : colors.ink;
    context.textAlign = "left";
    context.fillText(toldFew(one.values[k]), begin + 4, top + TIME.counter - (inside ? 10 : 10 + high(one.values[k])));
  });
  context.fillStyle = colors.faint;
  context.fillRect(left, top + TIME.counter - 3, right - left, 1);
}

function drawTimelineLegend() {
  const colors = pageColors();
  const swatch = (draw, text) => {
    const sample = document.createElement("canvas");
    draw(smallCanvas(sample, 18, 14));
    return labelled(sample, text);
  };
  const kinds = [...trace.kinds].slice(0, PE_COLORS.length).map(([key, rank]) => swatch((context) => {
    context.fillStyle = kindColor(rank);
    context.fillRect(0, 1, 18, 12);
  }, `${trace.byElement ? "element " : ""}${trace.names[key] || "no element"}`));
  const marks = [...trace.marks].map(([key, rank]) => swatch((context) => drawMark(context, rank, 9, 7, colors), trace.names[key]));
  const more = trace.kinds.size > PE_COLORS.length ? [document.createTextNode("others have these colors again")] : [];
  document.getElementById("timeline-legend").replaceChildren(...kinds, ...more, ...marks);
}

function noteTrace(tooMany) {
  const { left_out: leftOut, others, events, counters } = trace;
  const parts = [];
  if (tooMany > 0) parts.push(`Here are ${told(tooMany)} letters, too many to be told apart: go nearer to see them.`);
  if (leftOut > 0) parts.push(`The last ${told(leftOut)} of ${told(events)} events are left out.`);
  if (others > 0) {
    const are = others === 1 ? "is" : "are";
    parts.push(`${some(others, "event", "events")} of other kinds, or without a beginning or an end, ${are} not shown.`);
  }
  if (counters.length > MOST_COUNTERS) parts.push(`Of ${told(counters.length)} counters the first ${MOST_COUNTERS} are shown.`);
  const note = document.getElementById("timeline-note");
  note.textContent = parts.join(" ");
  note.hidden = parts.length === 0;
}

// What is told of the slice at a point of the picture.
function tellSlice({ offsetX, offsetY }, width) {
  const inner = width - TIME.margin.left - TIME.margin.right;
  const at = tracePart.from + ((offsetX - TIME.margin.left) / inner) * (tracePart.to - tracePart.from);
  const r = Math.floor((offsetY - TIME.ruler) / TIME.row);
  const near = (2 / inner) * (tracePart.to - tracePart.from);
  for (let k = trace.slice_at.length - 1; k >= 0; k--) {
    const [begin, long] = [trace.slice_at[k], trace.slice_long[k]];
    if (trace.slice_row[k] !== r || at < begin - near || at > begin + long + near) continue;
    const element = trace.names[trace.slice_element[k]];
    return `${trace.names[trace.slice_name[k]]}${element === "" ? "" : ` of element ${element}`} on ${trace.rows[r]}, from ${
      toldTime(begin)}, for ${toldTime(long, Math.max(long, 1))}.`;
  }
  return r >= 0 && r < trace.rows.length ? `${trace.rows[r]}, at ${toldTime(at)}.` : "";
}

// Tables of the timeline.

function timelineRowTable() {
  const count = (rows, r) => rows.reduce((sum, one) => sum + (one === r ? 1 : 0), 0);
  const rows = trace.rows.map((name, r) => {
    let busy = 0;
    trace.slice_row.forEach((one, k) => { if (one === r) busy += trace.slice_long[k]; });
    const arrows = (ends, moves) => ends.reduce((sum, one, k) => sum + (one === r && trace.arrow_moves[k] === moves ? 1 : 0), 0);
    const instants = trace.instant_row.reduce((sum, one, k) => sum + (one === r && !trace.instant_whole[k] ? 1 : 0), 0);
    const flows = [0, 1].flatMap((moves) => [arrows(trace.arrow_from_row, moves), arrows(trace.arrow_to_row, moves)]);
    return [name, count(trace.slice_row, r), { exact: busy, told: toldTime(busy, trace.whole) }, instants, ...flows];
  });
  return table(["row", "handlers", "at work", "instants", "letters sent", "letters taken", "elements left", "elements came"], rows,
    `${page.trace.file}: ${some(trace.events, "event", "events")}, ${toldTime(trace.whole, trace.whole)}.`);
}

function eventTable() {
  const inside = (at, end) => end >= tracePart.from && at <= tracePart.to;
  const rows = [];
  trace.slice_at.forEach((at, k) => {
    if (!inside(at, at + trace.slice_long[k])) return;
    const [name, element] = [trace.slice_name[k], trace.slice_element[k]].map((number) => trace.names[number]);
    rows.push([at, trace.rows[trace.slice_row[k]], "handler", name, element, trace.slice_long[k]]);
  });
  trace.instant_at.forEach((at, k) => {
    const where = trace.instant_whole[k] ? "all" : trace.rows[trace.instant_row[k]];
    if (inside(at, at)) rows.push([at, where, "instant", trace.names[trace.instant_name[k]], "", null]);
  });
  trace.arrow_from.forEach((at, k) => {
    if (!inside(at, trace.arrow_to[k])) return;
    const way = `${trace.rows[trace.arrow_from_row[k]]} to ${trace.rows[trace.arrow_to_row[k]]}`;
    rows.push([at, way, trace.arrow_moves[k] ? "element" : "letter", trace.names[trace.arrow_name[k]], "", trace.arrow_to[k] - at]);
  });
  for (const one of trace.counters) {
    one.at.forEach((at, k) => {
      if (inside(at, at)) rows.push([at, counterLabel(one), "counter", told(one.values[k]), "", null]);
    });
  }
  rows.sort((a, b) => a[0] - b[0]);
  return table(["ns", "row", "kind", "name", "element", "lasts, ns"], rows);
}
