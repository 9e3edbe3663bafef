"use strict";

// The argument of docs/CERTIFICATES.md, and nothing else: by the fence no division into so many blocks is lighter, and by the
// prices no naming of these blocks moves fewer bytes. It returns the first flaw of a decision, as ["PriceHigh", block, PE], or
// null where every part is right. Loads, prices and bytes are BigInt, so that no sum is rounded; places in the chain and PEs
// are numbers. A comparison is always of what has to hold: with what is no number none does.
function firstFlaw(run, d) {
  return formFlaw(run, d) ?? divisionFlaw(run, d) ?? namingFlaw(run, d);
}

// That each element has a load, a size and a place, and that all numbers are whole ones: BigInt where they are added up.
function formFlaw({ loads, sizes, places }, { pes, bottleneck, moved, cuts, stops, names, blockPrices, pePrices, planned, moves }) {
  const wrong = wrongNumber({ loads, bottleneck: [bottleneck], moved: [moved] }, isAmount) ??
    wrongNumber({ blockPrices, pePrices }, isPrice) ??
    wrongNumber({ sizes, places, pes: [pes], cuts, stops, names, planned, moves: Array.isArray(moves) && moves.flat() }, isIndex);
  if (wrong) return wrong;
  let bytes = 0;
  for (let i = 0; i < sizes.length; i++) bytes += sizes[i];
  if (sizes.length !== loads.length || places.length !== loads.length || !(bytes <= 2 ** 47)) return ["NoRun"];
  return pes >= 1 && pes <= 4096 ? null : ["PeCount"];
}

// The first number of these lists that is none of its kind.
function wrongNumber(lists, isOne) {
  for (const [name, numbers] of Object.entries(lists)) {
    if (!Array.isArray(numbers) && !ArrayBuffer.isView(numbers)) return ["NoNumber", name];
    for (let i = 0; i < numbers.length; i++) if (!isOne(numbers[i])) return ["NoNumber", name, i];
  }
  return null;
}

function isIndex(number) {
  return Number.isInteger(number) && number >= 0;
}

function isAmount(number) {
  return typeof number === "bigint" && number >= 0n;
}

function isPrice(number) {
  return typeof number === "bigint";
}

function divisionFlaw({ loads }, { pes, bottleneck, cuts, stops }) {
  const sums = runningSums(loads);
  if (cuts.length !== pes + 1) return ["CutCount"];
  if (cuts[0] !== 0) return ["CutStart"];
  if (!rises(cuts)) return ["CutOrder"];
  if (cuts[pes] !== loads.length) return ["CutEnd"];
  for (let b = 0; b < pes; b++) if (!(sums[cuts[b + 1]] - sums[cuts[b]] <= bottleneck)) return ["Heavy", b];
  if (stops.length === 0) return bottleneck === 0n ? null : ["ZeroFloor"];
  if (stops.length !== pes + 1) return ["FenceCount"];
  if (stops[0] !== 0) return ["FenceStart"];
  if (!rises(stops)) return ["FenceOrder"];
  if (!(stops[pes] < loads.length)) return ["FenceEnd"];
  for (let i = 1; i <= pes; i++) if (!(sums[stops[i] + 1] - sums[stops[i - 1]] >= bottleneck)) return ["FenceLight", i];
  return null;
}

function namingFlaw(run, d) {
  return namesFlaw(d) ?? pricesFlaw(run, d) ?? movesFlaw(run, d);
}

function namesFlaw({ pes, names }) {
  if (names.length !== pes) return ["NameCount"];
  if (!names.every((name) => name < pes)) return ["NameRange"];
  return new Set(names).size === pes ? null : ["NameTwice"];
}

function pricesFlaw({ sizes, places }, { pes, cuts, names, blockPrices, pePrices }) {
  if (blockPrices.length !== pes || pePrices.length !== pes) return ["PriceCount"];
  let cost = 0n, prices = 0n;
  const [ofBlocks, ofPes] = exactPrices(blockPrices, pePrices);
  for (let b = 0; b < pes; b++) {
    const elsewhere = bytesElsewhere(sizes, places, cuts[b], cuts[b + 1], pes);
    for (let p = 0; p < pes; p++) if (!(ofBlocks[b] + ofPes[p] <= elsewhere[p])) return ["PriceHigh", b, p];
    cost += BigInt(elsewhere[names[b]]);
    prices += blockPrices[b] + pePrices[b];
  }
  return prices === cost ? null : ["PriceGap"];
}

function movesFlaw({ sizes, places }, { pes, cuts, names, moved, planned, moves }) {
  let cost = 0n, goes = true;
  const wanted = [];
  for (let b = 0; b < pes; b++) {
    for (let i = cuts[b]; i < cuts[b + 1]; i++) {
      if (planned[i] !== names[b]) goes = false;
      if (places[i] === names[b]) continue;
      cost += BigInt(sizes[i]);
      wanted.push([i, places[i], names[b]]);
    }
  }
  if (moved !== cost) return ["MovedWrong"];
  const same = goes && moves.length === wanted.length && planned.length === places.length;
  const isMove = (move, k) => moves[k].length === 3 && move.every((x, j) => x === moves[k][j]);
  return same && wanted.every(isMove) ? null : ["MovesWrong"];
}

// The prices as plain numbers, where all are so small that two of them together are exact, and else as they are.
function exactPrices(blockPrices, pePrices) {
  const both = [blockPrices, pePrices];
  if (both.some((prices) => prices.some((price) => price < -(2 ** 52) || price > 2 ** 52))) return both;
  return both.map((prices) => Float64Array.from(prices, Number));
}

// The bytes of a block whose elements stand on another PE, for each PE.
function bytesElsewhere(sizes, places, first, end, pes) {
  const there = new Float64Array(pes);
  let all = 0;
  for (let i = first; i < end; i++) {
    all += sizes[i];
    if (places[i] < pes) there[places[i]] += sizes[i];
  }
  return there.map((bytes) => all - bytes);
}

function runningSums(numbers) {
  const sums = [0n];
  for (const number of numbers) sums.push(sums[sums.length - 1] + number);
  return sums;
}

function rises(numbers) {
  return numbers.every((number, i) => i === 0 || numbers[i - 1] <= number);
}
