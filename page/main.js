// The page as a whole: what is handed in goes to the reader once, and what it answers is shown in each part.
import { examples, wasm } from "./built.js";
import { open } from "./reader.js";
import { byId } from "./dom.js";
import { symbolsOf } from "./cells.js";
import { headerOf, rulesOf } from "./grammar.js";
import { bytesOfEvents, eventsOfBytes, partsOfExample, setUpInput, showInput, tellInput } from "./input.js";
import { followLink, keepLink, linkOf, viewOf } from "./link.js";
import { namesOf, toldWrong } from "./names.js";
import { sha256 } from "./sha256.js";
import { showRefusal, showSums, showVerdict } from "./verdict.js";
import { setUpChart, showChart, showChosen, showLit } from "./chart.js";
import { setUpTable, showTable } from "./table.js";
import { setUpReadings, showReadings } from "./readings.js";
import { setUpSession, showSession } from "./session.js";
import { setUpKeep, showKeep } from "./keep.js";

const EVENT_BYTES = 192;

// What the reader says of a grammar and a record. An odd file is refused here, as the reader's own program does it: behind 8.
function examined(given) {
  const { grammar, record, recordSize } = given, tested = reader.test(grammar);
  const base = { ...given, names: namesOf(given.namesText), sums: { grammar: sha256(grammar), record: sha256(record) } };
  if (tested.refusal) return { ...base, refusal: tested.refusal, rule: tested.rule };
  if (recordSize <= EVENT_BYTES && recordSize % 2) return { ...base, refusal: 14, rule: 0 };
  const events = eventsOfBytes(record), judged = reader.judge(grammar, events);
  if (judged.refusal) return { ...base, refusal: judged.refusal, rule: judged.rule };
  const { total, table } = reader.count(grammar, events), { symbols, leaves, pairs } = tested;
  const { flag } = headerOf(grammar), rules = rulesOf(grammar), cells = Array.from(judged.chart, symbolsOf);
  return { ...base, ...judged, events, total, table, symbols, leaves, pairs, flag, rules, cells };
}

// What a link or a hand has chosen, as far as this record has it.
function fitting(chosen, { events, symbols, total }) {
  const [i, k] = chosen.stretch ?? [0, 0], last = Math.max(0, total - 1);
  return {
    stretch: i < k && k <= events.length ? [i, k] : undefined, symbol: chosen.symbol < symbols ? chosen.symbol : undefined,
    k: Math.min(chosen.k ?? 0, last), other: chosen.other === undefined || total < 2 ? undefined : Math.min(chosen.other, last),
  };
}

let reader, shown, chosen = { k: 0 };

const remember = () => keepLink(linkOf(shown, chosen));

function choose(change) {
  chosen = { ...chosen, ...change };
  showChosen(shown, chosen);
  remember();
}

function turn(k, other) {
  chosen = { ...chosen, k, other };
  chosen.lit = showReadings(shown, k, other);
  showLit(chosen);
  remember();
}

// wished: what is to be chosen, as far as there is such a thing.
function show(given, wished) {
  shown = examined(given);
  byId("namesTold").textContent = toldWrong(shown.names.wrong);
  document.body.classList.toggle("refused", Boolean(shown.refusal));
  showSums(shown);
  showKeep(shown);
  chosen = shown.refusal ? { k: 0 } : fitting(wished, shown);
  if (shown.refusal) {
    showRefusal(shown);
  } else {
    showVerdict(shown);
    chosen.lit = showReadings(shown, chosen.k, chosen.other);
    showChart(shown, chosen);
    showTable(shown);
    showSession(shown);
  }
  remember();
  // for those who wait: how often something has been shown
  document.body.dataset.shown = Number(document.body.dataset.shown ?? 0) + 1;
}

// Other names change nothing of what is chosen; another record has other stretches and readings.
function load(parts) {
  const { grammar, grammarSize, record, recordSize, namesText } = { ...shown, ...parts }, onlyNames = !parts.grammar && !parts.record;
  show({ grammar, grammarSize, record, recordSize, namesText }, onlyNames ? chosen : { symbol: chosen.symbol });
  showInput(shown, parts.isExample || onlyNames ? byId("example").value : "");
}

function openLink(hash) {
  const view = viewOf(hash);
  if (hash.length > 1 && !view) tellInput("The link is not understood, or too long; this is the first example.");
  show(view?.parts ?? partsOfExample(examples[0]), view?.chosen ?? {});
  showInput(shown, view ? "" : "0");
}

function start(opened) {
  reader = opened;
  setUpInput(examples, load);
  const onStretch = (i, k) => choose({ stretch: [i, k] });
  const chartView = setUpChart({ choose: onStretch, pick: symbol => choose({ symbol }), redraw: () => showChart(shown, chosen) });
  setUpTable(onStretch);
  setUpReadings(reader, turn);
  setUpSession(reader, events => load({ record: bytesOfEvents(events), recordSize: 2 * events.length }));
  setUpKeep(chartView, () => ({ shown, chosen }));
  followLink(openLink);
  openLink(location.hash);
  document.body.dataset.ready = "yes";
}

function giveUp(error) {
  byId("verdict").textContent = "This browser cannot run the reader.";
  byId("fault").textContent = String(error);
}

open(wasm).then(start).catch(giveUp);
