// Numbers in the reader's grouping. Sums are BigInt, and quotients are worked out in whole numbers.

const grouping = new Intl.NumberFormat();
const POINT = new Intl.NumberFormat().formatToParts(1.5).find((part) => part.type === "decimal").value;
const told = (number) => grouping.format(number);

// A quotient with so many decimals, rounded down, or to the nearest; a dash where it is one by 0. The text has no grouping.
function quotient(over, under, decimals, nearest = false) {
  if (under === 0n) return null;
  const unit = 10n ** BigInt(decimals);
  const scaled = nearest ? (2n * over * unit + under) / (2n * under) : (over * unit) / under;
  return `${scaled / unit}.${String(scaled % unit).padStart(decimals, "0")}`;
}

function toldQuotient(text) {
  if (text === null) return "–";
  const [whole, part] = text.split(".");
  return `${told(BigInt(whole))}${POINT}${part}`;
}

// A number in few letters, for axes: 12, 4,500, 1.2 M.
const few = new Intl.NumberFormat(undefined, { maximumSignificantDigits: 3 });
const UNITS = [[1e18, "E"], [1e15, "P"], [1e12, "T"], [1e9, "G"], [1e6, "M"], [1e3, "k"]];

function toldFew(number) {
  if (number < 10000) return grouping.format(number);
  const [unit, letter] = UNITS.find(([one]) => number >= one);
  return `${few.format(number / unit)}\u00a0${letter}`;
}

const greatestOf = (numbers) => numbers.reduce((most, number) => (number > most ? number : most), 0n);
const sumOf = (numbers) => numbers.reduce((sum, number) => sum + number, 0n);
const some = (count, one, many) => `${told(count)} ${BigInt(count) === 1n ? one : many}`;
