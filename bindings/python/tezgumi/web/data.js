// What the page holds: a description, and blocks of columns of numbers, which columns.py writes.

const page = JSON.parse(document.getElementById("run").textContent);

// The bytes of a block, by its name.
async function inflated(name) {
  const letters = atob(document.getElementById(name).textContent);
  const bytes = new Uint8Array(letters.length);
  for (let i = 0; i < letters.length; i++) bytes[i] = letters.charCodeAt(i);
  const stream = new Blob([bytes]).stream().pipeThrough(new DecompressionStream("deflate"));
  return new Uint8Array(await new Response(stream).arrayBuffer());
}

// The columns that these heads tell of, in order, as pairs of a name and numbers of 64 bits.
async function columns(name, heads) {
  const bytes = await inflated(name);
  let at = 0;
  return heads.map(([column, count, width, isDifferences]) => {
    const numbers = new BigUint64Array(count);
    const view = new Uint8Array(numbers.buffer); // the lowest byte first, as on every machine that has a browser
    for (let k = 0; k < width; k++, at += count) {
      for (let i = 0; i < count; i++) view[8 * i + k] = bytes[at + i];
    }
    return [column, isDifferences ? summedUp(numbers) : numbers];
  });
}

const unfolded = (n) => (n & 1n ? ~(n >> 1n) : n >> 1n);

// Numbers whose differences, each from the one before it, these are.
function summedUp(differences) {
  let sum = 0n;
  return differences.map((difference) => {
    sum += unfolded(difference);
    return sum;
  });
}

// Of each round the loads of its PEs, as measured and as decided.
async function readLoads() {
  const read = await columns("loads", page.load_heads);
  return page.rounds.map((_, r) => ({ before: read[2 * r][1], after: read[2 * r + 1][1] }));
}

// By a loop, which is far faster than to map them.
function plain(numbers) {
  const made = new Float64Array(numbers.length);
  for (let i = 0; i < made.length; i++) made[i] = Number(numbers[i]);
  return made;
}

const signed = (numbers) => BigInt64Array.from(numbers, unfolded);

// A round with its elements: the run, and the decision where there is one. null where they were left out.
async function readRound(r) {
  const told = page.rounds[r];
  if (!told.heads) return null;
  const held = Object.fromEntries(await columns(`round-${r}`, told.heads));
  const [[, sizes]] = await columns(`sizes-${told.sizes}`, page.size_heads[told.sizes]);
  const run = { procs: told.procs, loads: held.loads, sizes: plain(sizes), places: plain(held.places) };
  return { number: r, run, decision: told.decision ? decisionOf(told.decision, run, held) : null };
}

function decisionOf(told, run, held) {
  const planned = held.planned ? plain(held.planned) : plannedByNames({ cuts: plain(held.cuts), names: plain(held.names) }, run);
  return {
    pes: told.pes, bottleneck: BigInt(told.bottleneck), moved: BigInt(told.moved),
    cuts: plain(held.cuts), stops: plain(held.stops), names: plain(held.names),
    blockPrices: signed(held.block_prices), pePrices: signed(held.pe_prices), planned,
    moves: held.move_element ? movesOf(held) : movesTo(run.places, planned),
    near: told.tolerance !== null,
    ...(told.tolerance === null ? {} : nearOf(told, held)),
  };
}

// What a decision within a tolerance has beside: the least possible load, and the heights as steps.
function nearOf(told, held) {
  const least = BigInt(told.least);
  return {
    tolerance: told.tolerance, least, limit: limitOf({ least, tolerance: told.tolerance }),
    keepOrder: told.keep_order, leastCuts: plain(held.least_cuts), order: plain(held.order), present: plain(held.present),
    stepStarts: plain(held.step_starts), stepPlaces: plain(held.step_places), stepRises: held.step_rises,
  };
}

function movesOf(held) {
  const parts = [held.move_element, held.move_present, held.move_planned].map(plain);
  return Array.from(parts[0], (_, k) => parts.map((part) => part[k]));
}

// The elements whose present and planned place differ: index, present PE, planned PE.
function movesTo(places, planned) {
  const moves = [];
  for (let i = 0; i < places.length; i++) {
    if (places[i] !== planned[i]) moves.push([i, places[i], planned[i]]);
  }
  return moves;
}

// Some rounds are kept, so that going to and fro between them reads each once.
const KEPT_ROUNDS = 6;
const keptRounds = new Map();

async function roundWithElements(r) {
  if (!keptRounds.has(r)) {
    keptRounds.set(r, readRound(r));
    if (keptRounds.size > KEPT_ROUNDS) keptRounds.delete(keptRounds.keys().next().value);
  }
  return keptRounds.get(r);
}
