// What is worked out of each round, from the loads of its PEs: exact numbers for tables, and doubles for pictures.

function roundFacts(r, { before, after }) {
  const told = page.rounds[r];
  const total = sumOf(before);
  const facts = {
    number: r + 1, told, total, before: spread(before, total), after: null, moved: null, bytes: null,
    average: quotient(total, BigInt(told.procs), 3), bound: null, least: null,
  };
  facts.bound = boundOf(told, total, BigInt(told.decision?.pes ?? told.procs));
  if (told.decision) {
    facts.least = BigInt(told.decision.least);
    if (after.length > 0) facts.after = spread(after, total);
    facts.moved = told.decision.moved_elements ?? null;
    facts.bytes = told.decision.moved_bytes === undefined ? null : BigInt(told.decision.moved_bytes);
  }
  return facts;
}

// How loads are spread over PEs: as lb_report counts it.
function spread(loads, total) {
  const greatest = greatestOf(loads);
  const even = greatest * BigInt(loads.length);
  return {
    loads, greatest, pes: loads.length, imbalance: quotient(even, total, 3),
    excess: total === 0n ? "0.000" : quotient(100n * (even - total), total, 3, true),
  };
}

// No placement of whole elements has a lesser greatest load.
function boundOf(told, total, pes) {
  const heaviest = BigInt(told.heaviest);
  const share = (total + pes - 1n) / pes;
  return heaviest > share ? heaviest : share;
}

// The outcome in two sentences, of which the second grows as the decisions are checked.
function summary(facts) {
  const worst = (side) => facts.filter((one) => one[side]?.imbalance).reduce(
    (most, one) => (most === null || Number(one[side].imbalance) > Number(most[side].imbalance) ? one : most), null);
  const before = worst("before");
  const rounds = facts.length === 1 ? "In this round" : `In ${told(facts.length)} rounds`;
  const pes = [...new Set(facts.map((one) => one.told.procs))];
  const on = pes.length === 1 ? ` on ${some(pes[0], "PE", "PEs")}` : "";
  if (before === null) return `${rounds}${on} no PE had any load.`;
  const several = facts.length > 1;
  let text = `${rounds}${on} the heaviest PE had ${several ? "up to " : ""}${times(before.before)} the average load as measured`;
  if (several) text += ` (in round ${told(before.number)})`;
  const after = worst("after");
  return after === null ? `${text}.` : `${text}, and ${several ? "at most " : ""}${times(after.after)} as decided.`;
}

const times = (spreadOf) => `${toldQuotient(spreadOf.imbalance)} times`;

// A decision that was made for the page: nobody says that the elements moved by it.
const isPlannedHere = (one) => one.told.decision?.new === true;

// What moves by the decisions that are recorded, and apart from it what would move by those that were planned here.
function toldMoves(facts) {
  const decided = facts.filter((one) => one.bytes !== null);
  const recorded = decided.filter((one) => !isPlannedHere(one));
  const planned = decided.filter(isPlannedHere);
  if (planned.length === 0) return recorded.length === 0 ? "" : `For that, ${toldSum(recorded, "moves", "move")}`;
  const would = `${toldSum(planned, "would move", "would move")} by ${planned.length === 1 ? "a plan" : "plans"} made here`;
  if (recorded.length === 0) return `For that, ${would}`;
  return `By what is recorded, ${toldSum(recorded, "moves", "move")}; in the other rounds ${would}`;
}

function toldSum(facts, one, several) {
  const bytes = facts.reduce((sum, it) => sum + it.bytes, 0n);
  const moved = facts.reduce((sum, it) => sum + it.moved, 0);
  return `${some(moved, "element", "elements")} with ${some(bytes, "byte", "bytes")} ${moved === 1 ? one : several}`;
}

// What is said of a round whose decision was made for the page, and "" of any other.
const toldPlannedHere = (one) => (isPlannedHere(one) ? one.told.decision.made : "");
