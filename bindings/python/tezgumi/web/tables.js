// Tables: behind each picture one, which is filled when it is opened. All that is written is text, and never markup.

const MOST_ROWS = 2000;

// A cell of a number has it in full for a program too; one of a text is aligned with words.
function cell(kind, value) {
  const made = document.createElement(kind);
  if (value === null || value === undefined) {
    made.textContent = "–";
  } else if (value instanceof Node) {
    made.append(value);
    made.className = "word";
  } else if (typeof value === "object") {
    made.append(data(value.exact, value.told));
  } else if (typeof value === "string") {
    made.textContent = value;
    made.className = "word";
  } else {
    made.append(data(value, told(value)));
  }
  return made;
}

function data(exact, text) {
  const made = document.createElement("data");
  made.value = String(exact);
  made.textContent = text;
  return made;
}

const quotientCell = (text) => (text === null ? null : { exact: text, told: toldQuotient(text) });

function row(kind, values) {
  const made = document.createElement("tr");
  made.append(...values.map((value) => cell(kind, value)));
  return made;
}

// A table with a head and rows; of very many rows the first ones, and then how many are left out.
function table(head, rows, caption = "") {
  const made = document.createElement("table");
  const more = rows.length > MOST_ROWS ? ` The first ${told(MOST_ROWS)} of ${told(rows.length)} rows.` : "";
  if (caption || more) made.createCaption().textContent = caption + more;
  made.createTHead().append(row("th", head));
  head.forEach((_, k) => {
    if (typeof rows[0]?.[k] !== "string" && !(rows[0]?.[k] instanceof Node)) made.tHead.rows[0].cells[k].className = "";
  });
  made.createTBody().append(...rows.slice(0, MOST_ROWS).map((values) => row("td", values)));
  return made;
}

// Fills the table of a `details` now, where it is open, and else as soon as it is opened.
const fillers = new Map();

function offerTable(id, fill) {
  const details = document.getElementById(id);
  if (!fillers.has(id)) details.addEventListener("toggle", () => fillTable(id));
  fillers.set(id, { fill, filled: false });
  fillTable(id);
}

function fillTable(id) {
  const details = document.getElementById(id);
  const filler = fillers.get(id);
  if (!details.open || filler.filled) return;
  filler.filled = true;
  details.querySelector("div").replaceChildren(...[filler.fill()].flat());
}

const ROUND_HEAD = [
  "round", "step", "elements", "PEs", "greatest, measured", "imbalance", "excess %", "PEs, decided", "greatest, decided",
  "imbalance", "excess %", "average", "least possible", "bound", "moved elements", "moved bytes", "of bytes", "check", "file",
  "decision"];

function roundRow(one, verdict) {
  const { told: round, before, after } = one;
  return [
    one.number, round.step, round.elements, round.procs, before.greatest, quotientCell(before.imbalance),
    quotientCell(before.excess), round.decision?.pes ?? null, after && after.greatest, after && quotientCell(after.imbalance),
    after && quotientCell(after.excess), quotientCell(one.average), one.least, one.bound, one.moved, one.bytes,
    BigInt(round.bytes), verdict, round.file, decisionKind(round.decision)];
}

function decisionKind(decision) {
  if (!decision) return "none";
  const within = decision.tolerance === null ? "" : `, within ${told(decision.tolerance)} thousandths`;
  return decision.made + within;
}

function peTable(one) {
  const count = Math.max(one.before.pes, one.after?.pes ?? 0);
  const rows = Array.from({ length: count }, (_, pe) => [pe, one.before.loads[pe] ?? null, one.after?.loads[pe] ?? null]);
  return table(["PE", "load, as measured", "load, as decided"], rows, `Round ${told(one.number)}.`);
}
