// A decision within a tolerance, by the argument of docs/CERTIFICATES.md about heights: the height is 0 where the first block
// begins, and from the beginning of a block within the limit to its end, where the next one begins, it rises by no more than the
// cut there costs. So no cuts within the limit cost less than the height of the last block. It returns the first flaw or null.
function nearFlaw(run, d) {
  const least = { pes: d.pes, bottleneck: d.least, cuts: d.leastCuts, stops: d.stops };
  const flaw = formFlaw(run, d) ?? nearFormFlaw(d) ?? divisionFlaw(run, least) ?? orderFlaw(run, d) ?? heightsFlaw(run, d) ??
    presentFlaw(run, d) ?? bottleneckFlaw(run, d);
  return flaw ?? (d.keepOrder ? keptFlaw(d) ?? movesFlaw(run, d) : namingFlaw(run, d));
}

function nearFormFlaw({ tolerance, keepOrder, least, leastCuts, order, present, stepStarts, stepPlaces, stepRises }) {
  const wrong = wrongNumber({ least: [least], stepRises }, isAmount) ??
    wrongNumber({ tolerance: [tolerance], leastCuts, order, present, stepStarts, stepPlaces }, isIndex);
  if (wrong) return wrong;
  if (!(tolerance <= 1000)) return ["NoNumber", "tolerance", 0];
  return typeof keepOrder === "boolean" ? null : ["NoNumber", "keepOrder"];
}

// The greatest load that a block may have.
function limitOf({ least, tolerance }) {
  return least + (least * BigInt(tolerance)) / 1000n;
}

function orderFlaw({ loads }, d) {
  const { pes, order, cuts } = d, limit = limitOf(d);
  if (order.length !== pes) return ["OrderCount"];
  if (!order.every((pe) => pe < pes)) return ["OrderRange"];
  if (new Set(order).size !== pes) return ["OrderTwice"];
  if (cuts.length !== pes + 1) return ["NearCount"];
  if (cuts[0] !== 0 || !rises(cuts) || cuts[pes] !== loads.length) return ["NoDivision"];
  const sums = runningSums(loads);
  for (let b = 0; b < pes; b++) if (!(sums[cuts[b + 1]] - sums[cuts[b]] <= limit)) return ["PastLimit", b];
  return null;
}

function heightsFlaw({ loads, sizes, places }, d) {
  const { pes, order, cuts, stepStarts, stepPlaces, stepRises } = d;
  const n = loads.length, starts = leastStarts(runningSums(loads), limitOf(d));
  if (stepPlaces.length !== stepRises.length || stepStarts.length !== pes + 1) return ["HeightCount"];
  if (!rises(stepStarts) || !(stepStarts[pes] <= stepPlaces.length)) return ["HeightCount"];
  const heights = (b) => heightsOf(stepPlaces, stepRises, stepStarts[b], stepStarts[b + 1], n);
  let here = heights(0), cost = 0, own = bytesBefore(sizes, places, order[0]);
  if (here[0] !== 0) return ["HeightStart"];
  for (let b = 0; b + 1 < pes; b++) {
    const next = heights(b + 1), others = bytesBefore(sizes, places, order[b + 1]);
    const cut = (x) => own[n] - own[x] + others[x]; // behind the cut on this block's PE, or before it on the next one's
    for (let x = 0; x <= n; x++) if (!(next[x] <= here[starts[x]] + cut(x))) return ["Steep", b, x];
    cost += cut(cuts[b + 1]);
    here = next;
    own = others;
  }
  return here[starts[n]] >= cost ? null : ["HeightLow"];
}

// The order is that of the elements today, and the present cuts are between them; PEs without elements come last, by number.
function presentFlaw({ places }, { pes, order, present }) {
  const stands = [], cuts = [];
  for (let i = 0; i < places.length; i++) {
    if (i > 0 && places[i] === places[i - 1]) continue;
    stands.push(places[i]);
    cuts.push(i);
  }
  const taken = new Set(stands);
  for (let pe = 0; pe < pes; pe++) {
    if (taken.has(pe)) continue;
    stands.push(pe);
    cuts.push(places.length);
  }
  cuts.push(places.length);
  const same = (one, other) => one.length === other.length && one.every((number, k) => number === other[k]);
  return same(stands, order) && same(cuts, present) ? null : ["OrderWrong"];
}

// Where the PEs are to keep their order, each block runs on the PE that is at its place.
function keptFlaw({ order, names }) {
  return names.length === order.length && names.every((name, b) => name === order[b]) ? null : ["NamesNotOrder"];
}

function bottleneckFlaw({ loads }, { pes, cuts, bottleneck }) {
  const sums = runningSums(loads);
  let most = 0n;
  for (let b = 0; b < pes; b++) if (sums[cuts[b + 1]] - sums[cuts[b]] > most) most = sums[cuts[b + 1]] - sums[cuts[b]];
  return most === bottleneck ? null : ["BottleneckWrong"];
}

// For each place the first one at which a block may begin that ends there. Heights never fall, so the others ask for less.
function leastStarts(sums, limit) {
  let y = 0;
  return sums.map((sum) => {
    while (sum - sums[y] > limit) y++;
    return y;
  });
}

// The height at each place: it rises at each step, up to the first step that lies behind. All cuts together cost at most 2^48
// bytes, twice those of all elements, so a height above 2^52 stands for that: it proves as much.
function heightsOf(stepPlaces, stepRises, first, end, n) {
  const heights = new Float64Array(n + 1);
  let height = 0, k = first;
  for (let x = 0; x <= n; x++) {
    for (; k < end && stepPlaces[k] <= x; k++) height = Math.min(height + Number(stepRises[k]), 2 ** 52);
    heights[x] = height;
  }
  return heights;
}

// The bytes of the elements before each place that stand on a PE.
function bytesBefore(sizes, places, pe) {
  const sums = new Float64Array(sizes.length + 1);
  for (let i = 0; i < sizes.length; i++) sums[i + 1] = sums[i] + (places[i] === pe ? sizes[i] : 0);
  return sums;
}
