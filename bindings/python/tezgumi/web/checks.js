// What the check of a decision says, step by step, and of all rounds one after another.

// The step before all others.
const FORM = [
  { title: "Each element has a load, a size and a PE, and all numbers are whole", flaws: ["NoNumber", "NoRun", "PeCount"],
    holds: (d) => `${some(d.planned.length, "element", "elements")}, ${some(d.pes, "PE", "PEs")}` },
];

// A step: what it is about, the flaws that are found in it, and what is told of a decision where it holds.
const DIVISION = [
  { title: "The cuts divide the chain", flaws: ["CutCount", "CutStart", "CutOrder", "CutEnd"],
    holds: (d) => `${told(d.cuts.length)} cuts, from 0 to ${told(d.cuts[d.pes])}, never decreasing` },
  { title: "No block is above the bottleneck", flaws: ["Heavy"],
    holds: (d) => `the heaviest of ${some(d.pes, "block", "blocks")} weighs ${told(d.bottleneck)} at most` },
  { title: "The fence: no division is lighter",
    flaws: ["FenceCount", "FenceStart", "FenceOrder", "FenceEnd", "FenceLight", "ZeroFloor"],
    holds: (d) => (d.stops.length === 0 ? "the bottleneck is 0, which needs no fence" :
      `${told(d.stops.length)} stops; from each to the next the elements weigh ${told(d.bottleneck)} or more`) },
];
const MOVES = [
  { title: "The bytes are those that move", flaws: ["MovedWrong"], holds: (d) => some(d.moved, "byte", "bytes") },
  { title: "The moves are those of the names", flaws: ["MovesWrong"],
    holds: (d) => `${some(d.moves.length, "move", "moves")}, in order of element` },
];
const NAMING = [
  { title: "Each block has a PE of its own", flaws: ["NameCount", "NameRange", "NameTwice"],
    holds: (d) => `${some(d.names.length, "name", "names")}, each of another PE` },
  { title: "The prices: no naming moves fewer bytes", flaws: ["PriceCount", "PriceHigh", "PriceGap"],
    holds: (d) => `${some(d.pes * d.pes, "pair has", "pairs have")} prices within the bytes that move, and all together are ${
      some(d.moved, "byte", "bytes")}` },
  ...MOVES,
];
const lowered = (text) => text[0].toLowerCase() + text.slice(1);
// Of a decision within a tolerance the division is the least one, from which the limit is measured.
const leastDivision = (d) => ({ ...d, cuts: d.leastCuts, bottleneck: d.least });
const NEAR = [
  ...FORM,
  ...DIVISION.map((step) => ({ ...step, title: `Least division: ${lowered(step.title)}`, of: leastDivision })),
  { title: "The order has each PE once", flaws: ["OrderCount", "OrderRange", "OrderTwice"],
    holds: (d) => some(d.order.length, "PE", "PEs") },
  { title: "No block is above the limit", flaws: ["NearCount", "NoDivision", "PastLimit"],
    holds: (d) => `each weighs ${told(d.limit)} at most, ${told(d.tolerance)} thousandths above ${told(d.least)}` },
  { title: "The heights: no cuts within the limit move fewer bytes, in this order",
    flaws: ["HeightCount", "HeightStart", "Steep", "HeightLow"],
    holds: (d) => `${some(d.stepPlaces.length, "step", "steps")}; no height rises by more than a cut costs` },
  { title: "The order is that in which the PEs stand", flaws: ["OrderWrong"], holds: () => "the elements of each PE are together" },
  { title: "The bottleneck is that of the heaviest block", flaws: ["BottleneckWrong"], holds: (d) => told(d.bottleneck) },
];
const KEPT = [
  { title: "The PEs keep their order", flaws: ["NamesNotOrder"], holds: (d) => `${some(d.names.length, "name", "names")}, in the order` },
  ...MOVES,
];

const stepsOf = (d) => [...(d.near ? NEAR : [...FORM, ...DIVISION]), ...(d.near && d.keepOrder ? KEPT : NAMING)];

// The first flaw of a decision or null. It is looked for once, as that takes a while for very many elements or PEs.
const flaws = new WeakMap();

function flawOf(run, d) {
  if (!flaws.has(d)) flaws.set(d, d.near ? nearFlaw(run, d) : firstFlaw(run, d));
  return flaws.get(d);
}

// What is wrong, in words: with the decision, the run, and the numbers of the flaw.
const FLAWS = {
  NoNumber: (d, run, list, at) => (at === undefined ? `${list} is no list of numbers` : `number ${at} of ${list} is no whole one that is taken`),
  NoRun: (d, run) => `there are ${some(run.loads.length, "load", "loads")}, ${some(run.sizes.length, "size", "sizes")} and ${
    some(run.places.length, "place", "places")}, and an element has one of each, of 2^47 bytes at most together`,
  PeCount: (d) => `there are ${some(d.pes, "PE", "PEs")}, and there have to be 1 to ${told(4096)}`,
  CutCount: (d) => `there are ${told(d.cuts.length)} cuts, and ${neededOf(d)}`,
  CutStart: (d) => `the first cut is ${told(d.cuts[0])}, and not 0`,
  CutOrder: (d) => `a cut is greater than the next: ${pairThatFalls(d.cuts)}`,
  CutEnd: (d, run) => `the last cut is ${told(d.cuts[d.pes])}, and there are ${some(run.loads.length, "element", "elements")}`,
  Heavy: (d, run, b) => `block ${b} weighs ${told(blockLoad(run, d, b))}, and the bottleneck is ${told(d.bottleneck)}`,
  FenceCount: (d) => `there are ${told(d.stops.length)} stops, and ${neededOf(d)}`,
  FenceStart: (d) => `the first stop is ${told(d.stops[0])}, and not 0`,
  FenceOrder: (d) => `a stop is greater than the next: ${pairThatFalls(d.stops)}`,
  FenceEnd: (d, run) => `the last stop is ${told(d.stops[d.pes])}, and the last element ${told(run.loads.length - 1)}`,
  FenceLight: (d, run, i) => `the elements ${told(d.stops[i - 1])} to ${told(d.stops[i])}, from stop ${i - 1} to stop ${i}, weigh ${
    told(loadBetween(run, d.stops[i - 1], d.stops[i] + 1))}, which is less than the bottleneck of ${told(d.bottleneck)}`,
  ZeroFloor: (d) => `there is no fence, and the bottleneck is ${told(d.bottleneck)}`,
  NameCount: (d) => `there are ${some(d.names.length, "name", "names")} for ${some(d.pes, "block", "blocks")}`,
  NameRange: (d) => `block ${d.names.findIndex((name) => name >= d.pes)} is to go to PE ${
    told(d.names.find((name) => name >= d.pes))}, and there ${d.pes === 1 ? "is" : "are"} ${some(d.pes, "PE", "PEs")}`,
  NameTwice: (d) => `two blocks are to go to PE ${told(d.names.find((name, b) => d.names.indexOf(name) < b))}`,
  PriceCount: (d) => `there are ${some(d.blockPrices.length, "price", "prices")} of blocks and ${told(d.pePrices.length)} of PEs`,
  PriceHigh: (d, run, b, p) => `the prices of block ${b} and PE ${p}, ${told(d.blockPrices[b])} and ${told(d.pePrices[p])}, ` +
    `are more than the ${some(blockCosts(run, d, b)[p], "byte", "bytes")} that the block moves there`,
  PriceGap: (d, run) => `all prices together are ${told(sumOf(d.blockPrices) + sumOf(d.pePrices))}, and these names move ${
    some(costOf(d, run), "byte", "bytes")}`,
  MovedWrong: (d, run) => `it says that ${some(d.moved, "byte", "bytes")} move, and these names move ${told(costOf(d, run))}`,
  MovesWrong: (d, run) => moveThatDiffers(d, run),
  OrderCount: (d) => `there are ${some(d.order.length, "PE", "PEs")} in the order, and there have to be ${told(d.pes)}`,
  OrderRange: (d) => `the order has PE ${told(d.order.find((pe) => pe >= d.pes))}, and there are ${some(d.pes, "PE", "PEs")}`,
  OrderTwice: (d) => `the order has PE ${told(d.order.find((pe, b) => d.order.indexOf(pe) < b))} twice`,
  NearCount: (d) => `there are ${told(d.cuts.length)} cuts, and there have to be ${told(d.pes + 1)}`,
  NoDivision: (d, run) => `the cuts do not go from 0 to ${told(run.loads.length)} without decreasing`,
  PastLimit: (d, run, b) => `block ${b} weighs ${told(blockLoad(run, d, b))}, and the limit is ${told(d.limit)}`,
  HeightCount: (d) => `there are not heights for ${some(d.pes, "block", "blocks")}`,
  HeightStart: () => "the height of the first block at the beginning of the chain is not 0",
  Steep: (d, run, b, x) => `from block ${b} to the next the height rises at place ${told(x)} by more than the cut costs there`,
  HeightLow: () => "the height of the last block is below what the cuts cost",
  OrderWrong: () => "the order and the present cuts are not those of the elements today, or these stand in no order of PEs",
  NamesNotOrder: () => "the PEs are to keep their order, and the names are another",
  BottleneckWrong: (d) => `it says that the heaviest block weighs ${told(d.bottleneck)}, and it does not`,
};

const blockLoad = (run, d, b) => loadBetween(run, d.cuts[b], d.cuts[b + 1]);
const loadBetween = (run, from, end) => sumOf(run.loads.slice(from, end));

const blockCosts = (run, d, b) => bytesElsewhere(run.sizes, run.places, d.cuts[b], d.cuts[b + 1], d.pes);
const neededOf = (d) => `for ${some(d.pes, "PE", "PEs")} there have to be ${told(d.pes + 1)}`;

function pairThatFalls(numbers) {
  const k = numbers.findIndex((number, i) => i > 0 && numbers[i - 1] > number);
  return `${told(numbers[k - 1])} and ${told(numbers[k])}`;
}

// The bytes that a block moves to a PE.
function bytesTo({ sizes, places }, { cuts }, b, pe) {
  let bytes = 0;
  for (let i = cuts[b]; i < cuts[b + 1]; i++) if (places[i] !== pe) bytes += sizes[i];
  return bytes;
}

function costOf(d, run) {
  return Array.from(d.names, (pe, b) => BigInt(bytesTo(run, d, b, pe))).reduce((sum, bytes) => sum + bytes, 0n);
}

// The first move, in the list or by the names, that the other does not have.
function moveThatDiffers(d, run) {
  const wanted = movesTo(run.places, plannedByNames(d, run));
  const k = Array.from({ length: Math.max(wanted.length, d.moves.length) }, (_, at) => at)
    .find((at) => String(wanted[at]) !== String(d.moves[at]));
  if (k === undefined) return "the places of the elements are not those of the names";
  const move = (one) => (one === undefined ? "no move" : `element ${told(one[0])} from PE ${one[1]} to PE ${one[2]}`);
  return `move ${told(k)} is ${move(d.moves[k])}, and by the names ${move(wanted[k])}`;
}

// The elements that a flaw is about, from the first to behind the last, or null where it is not about some of them.
function flawElements(flaw, d, run) {
  const [word, at, place] = flaw;
  if (word === "Heavy" || word === "PriceHigh" || word === "PastLimit") {
    const cuts = word === "Heavy" && d.near ? d.leastCuts : d.cuts;
    return [cuts[at], cuts[at + 1]];
  }
  if (word === "FenceLight") return [d.stops[at - 1], d.stops[at] + 1];
  if (word === "Steep") return [Math.max(place - 1, 0), place + 1];
  const byNames = word === "MovesWrong" ? plannedByNames(d, run) : [];
  const i = byNames.findIndex((pe, k) => d.planned[k] !== pe);
  return i < 0 ? null : [i, i + 1];
}

function plannedByNames(d, run) {
  const planned = new Float64Array(run.loads.length);
  d.names.forEach((pe, b) => planned.fill(pe, d.cuts[b], d.cuts[b + 1]));
  return planned;
}

// The line that lb_sim prints of it.
const flawLine = (flaw) => (flaw === null ? "holds" : flaw.join(" "));

// Checks a decision: what is shown of each step, and the flaw or null.
function checked({ run, decision }) {
  const flaw = flawOf(run, decision);
  const steps = stepsOf(decision);
  const wrong = flaw === null ? steps.length : steps.findIndex((step) => step.flaws.includes(flaw[0]));
  const rows = steps.map((step, k) => {
    const seen = step.of ? step.of(decision) : decision;
    if (k < wrong) return [step.title, "holds", step.holds(seen)];
    if (k > wrong) return [step.title, "–", "not looked at"];
    return [step.title, flawLine(flaw), FLAWS[flaw[0]](seen, run, ...flaw.slice(1))];
  });
  return { flaw, rows };
}

function showCheck(held) {
  const verdict = document.getElementById("verdict");
  const steps = document.getElementById("steps");
  offerWhere(null);
  offerTable("prices", () => priceTable(held));
  const say = (text, kind) => {
    verdict.textContent = text;
    verdict.className = `verdict ${kind}`;
  };
  if (held === null || held.decision === null) {
    const leftOut = "The elements of this round are left out, so nothing can be checked.";
    say(held === null ? leftOut : "There is no decision on this round.", "");
    steps.replaceChildren();
    return;
  }
  const { flaw, rows } = checked(held);
  document.getElementById("heights-told").hidden = !held.decision.near;
  document.getElementById("prices-told").hidden = held.decision.near && held.decision.keepOrder;
  offerWhere(flaw === null ? null : flawElements(flaw, held.decision, held.run));
  const who = toldPlannedHere(facts[chosen]);
  const here = who === "" ? "" : ` It was ${who}.`;
  if (flaw === null) say(`✓ The decision holds: every part of it is right.${here}`, "good");
  else say(`✗ The decision does not hold. ${flawLine(flaw)}: ${rows.find((one) => one[1] === flawLine(flaw))[2]}.`, "bad");
  const made = table(["step", "verdict", "what was seen"], rows);
  for (const one of made.tBodies[0].rows) {
    one.cells[1].classList.add(one.cells[1].textContent === "holds" ? "good" : "bad");
    if (one.cells[1].textContent === "–") one.cells[1].classList.remove("bad");
  }
  steps.replaceChildren(made);
}

// A button that goes to these elements, where there are some.
function offerWhere(elements) {
  const button = document.getElementById("where");
  button.hidden = elements === null;
  button.onclick = elements === null ? null : () => goToElements(...elements);
}

// The prices of each block and of its PE: where nothing is wrong they add up to the bytes that the block moves there.
function priceTable(held) {
  const d = held?.decision;
  if (d?.near && d.keepOrder) return table(["block"], [], "The PEs keep their order, so there are no prices.");
  if (!d || d.names.length !== d.pes || d.blockPrices.length !== d.pes || d.pePrices.length !== d.pes) {
    return table(["block"], [], "There are no prices for each block and PE.");
  }
  const divided = dividesChain(d, held.run.loads.length);
  const rows = Array.from(d.names, (pe, b) => {
    const price = d.pePrices[pe] ?? null;
    const bytes = divided && pe < d.pes ? bytesTo(held.run, d, b, pe) : null;
    return [b, d.blockPrices[b], pe, price, price === null ? null : d.blockPrices[b] + price, bytes];
  });
  return table(["block", "its price", "goes to PE", "price of that PE", "together", "bytes that move"], rows);
}

// Checks the decisions of all rounds, a few at a time so that the page stays quick, and tells after each how far it is.
async function checkAll(tell) {
  const verdicts = new Array(page.rounds.length).fill(null);
  let last = performance.now();
  for (let r = 0; r < verdicts.length; r++) {
    verdicts[r] = await verdictOf(r);
    if (performance.now() - last < 30 && r + 1 < verdicts.length) continue;
    tell(verdicts, r + 1);
    await new Promise((resume) => setTimeout(resume));
    last = performance.now();
  }
  return verdicts;
}

async function verdictOf(r) {
  if (!page.rounds[r].decision) return "no decision";
  const held = await (keptRounds.get(r) ?? readRound(r));
  return held === null ? "left out" : flawLine(flawOf(held.run, held.decision));
}

function toldVerdicts(verdicts, looked) {
  const count = (word) => verdicts.filter((one) => one === word).length;
  const decided = verdicts.length - count("no decision") - (looked < verdicts.length ? 0 : count("left out"));
  const right = [null, "holds", "no decision", "left out"];
  const wrong = verdicts.map((one, r) => [one, r + 1]).filter(([one]) => !right.includes(one));
  if (looked < verdicts.length) return `checking the decisions: ${told(looked)} of ${told(verdicts.length)} rounds so far`;
  if (decided === 0) return "there is no decision to check";
  const planned = page.rounds.filter((one) => one.decision?.new).length;
  const word = planned === 0 ? "decision" : planned === verdicts.length - count("no decision") ? "plan" : "decision or plan";
  const words = word.split(" or ").map((each) => `${each}s`).join(" and ");
  const one = verdicts.length === 1 ? `the ${word} holds` : `the one ${word} holds`;
  if (wrong.length === 0 && decided === 1) return `${one}: this page has checked it`;
  if (wrong.length === 0) return `all ${told(decided)} ${words} hold: this page has checked each of them`;
  const [line, number] = wrong[0];
  if (verdicts.length === 1) return `the ${word} does not hold: the check says ${line}`;
  return `${some(wrong.length, `${word} does`, `${words} do`)} not hold: in round ${told(number)} the check says ${line}`;
}
