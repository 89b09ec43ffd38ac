// The chart as a table, for those who do not see the picture or do not use a pointer: the same findings, with their numbers.
import { byId, make, press, some, span, toldCount } from "./dom.js";
import { cellNumber, stretchesOf } from "./cells.js";
import { waysOf } from "./chart.js";

const ALL_EVENTS = 20, ROWS_MOST = 400;
let tableShown, tableChoose;

export function setUpTable(choose) {
  tableChoose = choose;
  byId("rows").addEventListener("change", fillTable);
  byId("tablePart").addEventListener("toggle", fillTable);
}

// All stretches of a short record, or of any record those that end at one event.
export function showTable(shown) {
  tableShown = shown;
  const n = shown.events.length;
  const ends = Array.from({ length: n }, (_, x) => make("option", { value: x + 1 }, `the stretches that end at event ${x + 1}`));
  const all = n <= ALL_EVENTS ? [make("option", { value: "all" }, "all stretches")] : [];
  byId("rows").replaceChildren(make("option", { value: "some" }, "the stretches that are something"), ...all, ...ends);
  if (n > ALL_EVENTS) byId("rows").value = n;
  fillTable();
}

function fillTable() {
  const body = byId("table"), shown = tableShown, way = byId("rows").value;
  if (!byId("tablePart").open || !shown) return body.replaceChildren();
  const n = shown.events.length, end = Number(way);
  const found = ([i, k]) => shown.cells[cellNumber(i, k)];
  const rows = stretchesOf(n).filter(stretch => way === "all" || (end ? stretch[1] === end : found(stretch).length));
  const findings = (i, k) => found([i, k]).map(symbol => `${shown.names.long(symbol)} (${toldCount(waysOf(shown, i, k, symbol))})`);
  body.replaceChildren(...rows.slice(0, ROWS_MOST).map(([i, k]) => make("tr", {},
    make("th", { scope: "row" }, press(span(i, k), () => tableChoose(i, k), { class: "plain" })),
    make("td", { class: "number" }, String(found([i, k]).length)), make("td", {}, findings(i, k).join(", ") || "nothing"))));
  const longest = rows.length > ROWS_MOST ? `The ${ROWS_MOST} longest of ` : "";
  byId("tableTold").textContent = `${longest}${some(rows.length, "stretch", "stretches")}.`;
}
