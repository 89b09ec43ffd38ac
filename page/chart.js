// The record's chart on the page: the picture, its legend, the chosen stretch with all its findings, and the chosen symbol's stretches.
import { byId, capital, draw, make, press, some, span, toldCount } from "./dom.js";
import { STEPS, cellNumber, mostIn, sideOf, stretchesWith, widest } from "./cells.js";
import { markPath } from "./picture.js";
import { markView, namedAtFirst, newView, showView } from "./view.js";

// With more names than these a picture could be looked at in part, but neither be printed nor kept in reasonable time.
const LISTED = 12, NAMED_MOST = 20000;
let chartView, act;

// actions: choose(i, k), pick(symbol); what is chosen is kept by the caller.
export function setUpChart(actions) {
  act = actions;
  chartView = newView(byId("chart"), byId("chartZoom"), "chart", act.choose);
  byId("cellsShow").addEventListener("change", () => act.redraw());
  byId("symbol").addEventListener("change", () => act.pick(byId("symbol").value === "" ? undefined : Number(byId("symbol").value)));
  return chartView;
}

const numbered = (symbol, names) => names.short(symbol) === String(symbol) ? String(symbol) : `${symbol} ${names.short(symbol)}`;
const markedOf = chosen => ({ chosen: chosen.stretch, symbol: chosen.symbol, lit: chosen.lit });

export function showChart(shown, chosen) {
  const { cells, events, names } = shown, n = events.length, way = byId("cellsShow").value;
  const named = way === "auto" ? namedAtFirst(cells, n) : way === "names" && shown.items <= NAMED_MOST;
  const label = `Chart of ${some(n, "event")}; the table below has the same.`;
  showView(chartView, { cells, n, events, names, named, side: sideOf(shown.symbols) }, label, markedOf(chosen));
  const options = Array.from({ length: shown.symbols }, (_, symbol) => make("option", { value: symbol }, numbered(symbol, names)));
  byId("symbol").replaceChildren(make("option", { value: "" }, "none"), ...options);
  showLegend(shown, named);
  const tooMany = make("p", { id: "tooMany" }, "More findings than can be written as names: marks stand for them.");
  if (way === "names" && !named) byId("legend").prepend(tooMany);
  showChosen(shown, chosen);
}

// What a reading lights, and what has been chosen, without a new picture.
export const showLit = chosen => markView(chartView, markedOf(chosen));

export function showChosen(shown, chosen) {
  byId("symbol").value = chosen.symbol ?? "";
  showLit(chosen);
  showStretch(shown, chosen.stretch);
  showBreaks(shown, chosen.symbol);
}

export const waysOf = (shown, i, k, symbol) => shown.table[cellNumber(i, k) * shown.symbols + symbol];

// The chosen stretch: every finding of it, each with its number of derivations.
function showStretch(shown, stretch) {
  const box = byId("stretch");
  const nothing = "Choose a stretch to read what it is: by pointer, or in the chart by the arrow keys.";
  if (!stretch) return box.replaceChildren(make("p", { class: "quiet" }, nothing));
  const [i, k] = stretch, found = shown.cells[cellNumber(i, k)], { names } = shown;
  const events = Array.from(shown.events.slice(i, k), event => names.event(event)).join(" ");
  box.replaceChildren(make("h3", {}, capital(span(i, k))), make("p", { class: "quiet wrap" }, events));
  if (!found.length) return box.append(make("p", {}, "No finding: no symbol derives these events."));
  const rows = found.map(symbol => make("tr", {},
    make("td", {}, press(names.long(symbol), () => act.pick(symbol), { class: "plain", title: "Show where this is found" })),
    make("td", { class: "number" }, toldCount(waysOf(shown, i, k, symbol)))));
  const heads = [make("th", { scope: "col" }, "It is"), make("th", { scope: "col", class: "number" }, "Derivations")];
  box.append(make("table", { "data-stretch": `${i} ${k}` }, make("caption", {}, some(found.length, "finding")),
    make("thead", {}, make("tr", {}, ...heads)), make("tbody", {}, ...rows)));
}

const stretchButton = ([i, k]) => make("li", {}, press(capital(span(i, k)), () => act.choose(i, k), { class: "plain" }));

function longestList(shown, symbol) {
  const all = stretchesWith(shown.cells, shown.events.length, symbol), wide = widest(all), name = shown.names.long(symbol);
  if (!all.length) return [make("p", {}, `${capital(name)} covers no stretch.`)];
  const few = wide.length === 1 ? "The longest, in which all lie" : "Those that lie in no other";
  const which = wide.length > LISTED ? `The ${LISTED} longest of ${wide.length} that lie in no other` : few;
  return [make("p", {}, `${capital(name)} is found at ${some(all.length, "stretch", "stretches")}. ${which}:`),
    make("ul", { class: "stretches" }, ...wide.slice(0, LISTED).map(stretchButton))];
}

// Where a record is not admitted one sees how far symbol 0 comes; the chosen symbol's stretches are told in any case.
function showBreaks(shown, symbol) {
  const box = byId("breaks"), n = shown.events.length, parts = [];
  if (!shown.admitted && n) {
    const unknown = Array.from({ length: n }, (_, i) => i).filter(i => !shown.cells[cellNumber(i, i + 1)].length);
    parts.push(make("h3", {}, "Where it breaks"), ...longestList(shown, 0));
    const places = unknown.slice(0, LISTED).map(i => `${i + 1} (${shown.names.event(shown.events[i])})`).join(", ");
    const one = unknown.length === 1 ? "event at place" : "events at places", more = unknown.length > LISTED ? " and more" : "";
    if (unknown.length) parts.push(make("p", {}, `No rule has the ${one} ${places}${more}.`));
  }
  if (symbol !== undefined && (shown.admitted || symbol !== 0) && n) {
    parts.push(make("h3", {}, `Where ${shown.names.long(symbol)} is found`), ...longestList(shown, symbol));
  }
  box.replaceChildren(...parts);
}

// Colours for how many; places in the square for which.
function showLegend({ cells, symbols, names }, named) {
  const most = mostIn(cells), steps = STEPS.filter(least => least <= most);
  const items = steps.map((least, x) => {
    const last = Math.min(most, (STEPS[x + 1] ?? 65) - 1);
    return make("li", {}, swatch(`step${x}`), least === 0 ? "nothing" : least === last ? String(least) : `${least} to ${last}`);
  });
  const edges = { lit: "in the reading", other: "only in the one beside it", holds: "the chosen symbol" };
  items.push(...Object.entries(edges).map(([kind, words]) => make("li", {}, swatch(`step0 ${kind}`), words)));
  const title = make("p", {}, "Findings in a stretch, all of them counted:");
  byId("legend").replaceChildren(title, make("ul", { class: "swatches" }, ...items));
  if (named) return;
  const places = Array.from({ length: symbols }, (_, symbol) =>
    make("li", {}, markSwatch(symbol, sideOf(symbols)), press(numbered(symbol, names), () => act.pick(symbol), { class: "plain" })));
  byId("legend").append(make("details", { open: symbols <= 16 }, make("summary", {}, "Which: each symbol's place in a cell"),
    make("ul", { class: "swatches places" }, ...places)));
}

const swatch = words => draw("svg", { class: "picture swatch", width: 16, height: 16, "aria-hidden": "true" },
  draw("rect", { class: `cell ${words}`, x: 1.5, y: 1.5, width: 13, height: 13, rx: 2 }));

const markSwatch = (symbol, side) => draw("svg", { class: "picture swatch", width: 20, height: 20, viewBox: "0 0 26 26", "aria-hidden": "true" },
  draw("rect", { class: "cell step1", x: 1, y: 1, width: 24, height: 24, rx: 2 }), draw("path", { class: "dot", d: markPath(symbol, side) }));
