// Puts the page together: the round that is chosen, and what is drawn anew when something changes.

let facts = [];
let verdicts = [];
let chosen = 0;
let scaleTop = 0; // the greatest load of a PE of all rounds

const BY_ROUND = ["before", "after", "greatest", "imbalance", "bytes", "moved"];
const picture = (id) => document.getElementById(id);

// What lines and bars are drawn from: worked out once for all rounds.
let drawn = null;

function linesAndBars() {
  drawn ??= {
    greatest: greatestLines(facts), imbalance: imbalanceLines(facts), moved: facts.map((one) => one.moved),
    bytes: facts.map((one) => (one.bytes === null ? null : Number(one.bytes))),
  };
  return drawn;
}

function drawRounds() {
  const { greatest, imbalance, bytes, moved } = linesAndBars();
  drawMap(picture("before"), facts, "before", scaleTop, chosen);
  drawMap(picture("after"), facts, "after", scaleTop, chosen);
  drawLines(picture("greatest"), facts, greatest, "", chosen);
  drawLines(picture("imbalance"), facts, imbalance, " %", chosen);
  drawBars(picture("bytes"), facts, bytes, chosen);
  drawBars(picture("moved"), facts, moved, chosen);
}

function drawAll() {
  drawScale(BigInt(scaleTop));
  drawLegend("greatest-legend", linesAndBars().greatest);
  drawLegend("imbalance-legend", linesAndBars().imbalance);
  drawRounds();
  drawChain();
  if (trace !== null) drawTimelineLegend();
  drawTimeline();
}

// Shows a round: everywhere on the page.
async function choose(r) {
  chosen = Math.min(Math.max(r, 0), facts.length - 1);
  document.getElementById("round").value = chosen + 1;
  document.getElementById("chosen").textContent = toldRound(facts[chosen]);
  document.getElementById("previous").disabled = chosen === 0;
  document.getElementById("next").disabled = chosen === facts.length - 1;
  for (const number of document.querySelectorAll(".number")) number.textContent = told(chosen + 1);
  drawRounds();
  offerTable("pe-loads", () => peTable(facts[chosen]));
  markRow();
  const wanted = chosen;
  const held = await roundWithElements(wanted);
  if (wanted === chosen) showElements(held);
}

function toldRound(one) {
  const after = one.after === null ? "" : ` → ${toldQuotient(one.after.imbalance)}`;
  const place = `Round ${told(one.number)} of ${told(facts.length)}, step ${told(one.told.step)}`;
  const made = toldPlannedHere(one);
  return `${place}: imbalance ${toldQuotient(one.before.imbalance)}${after}${made && ` (${made})`}`;
}

function showElements(held) {
  document.getElementById("fence-told").textContent = held?.decision?.stops.length ?
    "Triangles are the stops of the fence, and each bracket tells what the elements between two of them weigh, both included." : "";
  showCheck(held);
  if (held === null) {
    chain = null;
    ready(picture("chain-picture"), 8);
    document.getElementById("pe-legend").replaceChildren();
    noteChain("The elements of this round are left out, since the page would be too large with those of all rounds.");
    for (const id of ["blocks", "stops", "moves"]) offerTable(id, () => table(["left out"], []));
  } else {
    showChain(held);
  }
  document.documentElement.dataset.round = chosen + 1;
}

function markRow() {
  const rows = document.querySelectorAll("#all-rounds tbody tr");
  rows.forEach((one, r) => one.classList.toggle("chosen", r === chosen));
}

function offerRounds() {
  offerTable("all-rounds", () => {
    const made = table(ROUND_HEAD, facts.map((one, r) => roundRow(one, verdicts[r] ?? "not yet")));
    setTimeout(markRow);
    return made;
  });
}

function listen() {
  const slider = document.getElementById("round");
  slider.max = facts.length;
  slider.addEventListener("input", () => choose(Number(slider.value) - 1));
  document.getElementById("previous").addEventListener("click", () => choose(chosen - 1));
  document.getElementById("next").addEventListener("click", () => choose(chosen + 1));
  for (const id of BY_ROUND) {
    picture(id).addEventListener("click", (event) => {
      const r = roundAt(picture(id), facts.length, event.offsetX);
      if (r !== null) choose(r);
    });
  }
  document.addEventListener("keydown", goByKey);
  handle(picture("chain-picture"), () => chainPart, CHAIN.margin);
  zoomButtons("chain", () => chainPart);
  document.getElementById("chain-even").addEventListener("change", async () => {
    const held = await roundWithElements(chosen);
    if (held) showChain(held);
  });
  picture("chain-picture").addEventListener("pointermove", (event) => {
    document.getElementById("chain-told").textContent = tellElement(event.offsetX, picture("chain-picture").clientWidth);
  });
  picture("timeline-picture").addEventListener("pointermove", (event) => {
    if (trace) document.getElementById("timeline-told").textContent = tellSlice(event, picture("timeline-picture").clientWidth);
  });
  redrawOnChange();
}

// The arrow keys go from round to round, wherever they mean nothing else.
function goByKey(event) {
  if (event.target.closest("input, .scroll, pre") || event.ctrlKey || event.metaKey || event.altKey) return;
  const steps = { ArrowLeft: -1, ArrowRight: 1 };
  if (!(event.key in steps)) return;
  event.preventDefault();
  choose(chosen + steps[event.key]);
}

function redrawOnChange() {
  let width = document.body.clientWidth;
  new ResizeObserver(() => {
    if (document.body.clientWidth === width) return;
    width = document.body.clientWidth;
    drawAll();
  }).observe(document.body);
  window.matchMedia("(prefers-color-scheme: dark)").addEventListener("change", drawAll);
  window.matchMedia("print").addEventListener("change", (event) => onPaper(event.matches));
  window.addEventListener("beforeprint", () => onPaper(true));
  window.addEventListener("afterprint", () => onPaper(false));
}

function onPaper(is) {
  document.documentElement.classList.toggle("paper", is);
  drawAll();
}

function tellSummary(done) {
  const first = summary(facts);
  const moves = toldMoves(facts);
  const outcome = toldVerdicts(verdicts, done);
  const second = moves === "" ? `${outcome[0].toUpperCase()}${outcome.slice(1)}.` : `${moves}, and ${outcome}.`;
  document.getElementById("summary").textContent = `${first} ${second}`;
}

function tellNotes() {
  const notes = document.getElementById("notes");
  const said = [toldLeftOut(), toldPlans(), ...page.notes.map((note) => `${note[0].toUpperCase()}${note.slice(1)}.`)];
  notes.textContent = said.filter((note) => note !== "").join(" ");
  notes.hidden = notes.textContent === "";
  document.getElementById("planned-here").hidden = !facts.some(isPlannedHere);
  document.getElementById("made").textContent = `Made by tezgumi ${page.version} of ` +
    `${some(page.rounds.length, "round", "rounds")}. This file needs no network, and nothing leaves it.`;
}

const listed = (numbers) => (numbers.length > 20 ? `${numbers.slice(0, 20).map(told).join(", ")} and others` : numbers.map(told).join(", "));

function toldLeftOut() {
  const without = facts.filter((one) => !one.told.heads).map((one) => one.number);
  const all = facts.length;
  if (without.length === 0) return "";
  return `The page has the elements of ${told(all - without.length)} of ${told(all)} rounds, as it would be too ` +
    `large with all. Of the rounds ${listed(without)} it has the loads of the PEs alone, so their chains are not drawn and their ` +
    "decisions not checked.";
}

// The rounds that were planned here, by the reason: what is shown as decided need not be what the run did.
function toldPlans() {
  const planned = facts.filter(isPlannedHere);
  return [...new Set(planned.map(toldPlannedHere))].map((made) => {
    const numbers = planned.filter((one) => toldPlannedHere(one) === made).map((one) => one.number);
    const rounds = numbers.length === facts.length ? (numbers.length === 1 ? "This round" : "All rounds") :
      `${numbers.length === 1 ? "Round" : "Rounds"} ${listed(numbers)}`;
    return `${rounds}: ${made}, so the run may have moved other elements.`;
  }).join(" ");
}

// What a decision that does not hold says is the least possible load is not shown as such.
function believeNone() {
  facts.forEach((one, r) => {
    if (!["holds", "no decision", "left out"].includes(verdicts[r])) one.least = null;
  });
  drawn = null;
  drawRounds();
  offerRounds();
}

// The lines that check, as the page shows them.
const CHECK = [
  firstFlaw, formFlaw, wrongNumber, isIndex, isAmount, isPrice, divisionFlaw, namingFlaw, namesFlaw, pricesFlaw, movesFlaw,
  exactPrices, bytesElsewhere, runningSums, rises];
const HEIGHTS = [
  nearFlaw, nearFormFlaw, limitOf, orderFlaw, heightsFlaw, presentFlaw, bottleneckFlaw, keptFlaw, leastStarts, heightsOf, bytesBefore];
const anyNear = () => page.rounds.some((one) => one.decision && one.decision.tolerance !== null);

async function start() {
  const loads = await readLoads();
  facts = loads.map((one, r) => roundFacts(r, one));
  verdicts = facts.map(() => null);
  scaleTop = Number(facts.reduce((most, one) => {
    const both = [most, one.before.greatest, one.after?.greatest ?? 0n];
    return greatestOf(both);
  }, 0n));
  document.querySelector("#check-source pre").textContent = [...CHECK, ...(anyNear() ? HEIGHTS : [])].map(String).join("\n\n");
  tellSummary(0);
  tellNotes();
  listen();
  offerRounds();
  drawAll();
  await choose(Number(location.hash.slice(1)) - 1 || 0);
  await startTimeline();
  document.documentElement.dataset.drawn = Math.round(performance.now());
  verdicts = await checkAll((found, looked) => {
    verdicts = found;
    tellSummary(looked);
  });
  believeNone();
  document.documentElement.dataset.checked = Math.round(performance.now());
}

start().catch((error) => {
  document.getElementById("summary").textContent =
    `The page cannot be drawn: ${error.message}. It needs a browser of 2023 or later.`;
  throw error;
});
