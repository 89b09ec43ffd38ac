// A session: events come one by one, the verdict is told after each, and the last one can be taken back.
import { byId, capital, make, numbersOf, press, some, span } from "./dom.js";
import { cellNumber, sideOf, symbolsOf } from "./cells.js";
import { eventsKnown } from "./grammar.js";
import { refusalOf } from "./refusals.js";
import { markView, namedAtFirst, newView, showView } from "./view.js";

const BUTTONS_MOST = 40;
let sessionReader, sessionView, run;

// use(events) makes a session's events the record.
export function setUpSession(reader, use) {
  sessionReader = reader;
  sessionView = newView(byId("sessionChart"), byId("sessionZoom"), "session's chart", (i, k) => tellCell(i, k));
  byId("takeBack").addEventListener("click", takeBackLast);
  byId("anew").addEventListener("click", () => beginSession(run.shown));
  byId("useRecord").addEventListener("click", () => use(run.events));
  byId("addForm").addEventListener("submit", submitted => {
    submitted.preventDefault();
    const { numbers, wrong } = numbersOf(byId("event").value, 65535);
    if (wrong !== undefined) return tellSession(`“${wrong}” is not an event: those are whole numbers from 0 to 65,535.`, "no");
    numbers.every(addEvent);
    byId("event").value = "";
  });
}

// A session is begun anew with every grammar: with the words of another one it would tell of neither.
function beginSession(shown) {
  run = { shown, session: sessionReader.begin(), events: [], verdicts: [] };
  const known = eventsKnown(shown.rules);
  byId("events").replaceChildren(...known.slice(0, BUTTONS_MOST).map(event =>
    press(shown.names.event(event), () => addEvent(event), { title: `Add ${shown.names.longEvent(event)}`, "data-event": event })));
  if (known.length > BUTTONS_MOST) byId("events").append(make("span", { class: "quiet" }, `and ${known.length - BUTTONS_MOST} more, by number`));
  tellSession("No events yet.", "");
  drawSession();
}

// Another record or other names change nothing of a session; another grammar begins a new one.
export function showSession(shown) {
  if (run?.shown.grammar !== shown.grammar) return beginSession(shown);
  const before = run;
  beginSession(shown);
  run = { ...before, shown };
  if (run.events.length) tellVerdict();
  drawSession();
}

function addEvent(event) {
  const { shown } = run, answer = sessionReader.add(shown.grammar, run.session, event);
  if (answer.refusal) return tellFault(answer);
  run.session = answer.session;
  run.events.push(event);
  run.verdicts.push({ admitted: answer.admitted, firings: answer.firings });
  tellVerdict();
  drawSession();
  return true;
}

function takeBackLast() {
  const answer = sessionReader.takeBack(run.session);
  if (answer.refusal) return tellFault(answer);
  run.session = answer.session;
  run.events.pop();
  run.verdicts.pop();
  if (run.events.length) tellVerdict(); else tellSession("No events.", "");
  drawSession();
}

function tellFault(answer) {
  const { title, help } = refusalOf({ ...run.shown, ...answer });
  tellSession(`${title}. ${help}`, "no");
  return false;
}

function tellSession(text, kind) {
  byId("soFar").textContent = text;
  byId("soFar").className = `told ${kind}`;
}

function tellVerdict() {
  const { admitted, firings } = run.verdicts.at(-1), all = run.verdicts.reduce((sum, verdict) => sum + verdict.firings, 0n);
  const came = `${run.shown.names.longEvent(run.events.at(-1))} came, with ${some(firings, "firing")}; ${some(all, "firing")} in all.`;
  const verdict = `After ${some(run.events.length, "event")}: ${admitted ? "admitted so far" : "not admitted so far"}.`;
  tellSession(`${verdict} ${capital(came)}`, admitted ? "yes" : "no");
}

const sessionCells = () => Array.from(run.session.words.slice(0, cellNumber(0, run.events.length + 1)), symbolsOf);

// The column that came last is lit, in the strip too.
function drawSession() {
  const cells = sessionCells(), n = run.events.length, { names } = run.shown;
  byId("useRecord").disabled = byId("sessionZoom").hidden = n === 0;
  byId("verdicts").replaceChildren(...run.verdicts.map(({ admitted }, x) => {
    const heard = make("span", { class: "unseen" }, admitted ? " admitted" : " not admitted");
    return make("li", { class: admitted ? "yes" : "no" }, `${names.event(run.events[x])} ${admitted ? "✓" : "–"}`, heard);
  }));
  const data = { cells, n, events: run.events, names, named: namedAtFirst(cells, n), side: sideOf(run.shown.symbols) };
  showView(sessionView, data, `Chart of the session's ${some(n, "event")}`, { column: n });
  byId("sessionCell").textContent = "";
}

function tellCell(i, k) {
  const { names } = run.shown, found = sessionCells()[cellNumber(i, k)];
  byId("sessionCell").textContent = `${capital(span(i, k))}: ${found.map(symbol => names.long(symbol)).join(", ") || "nothing"}`;
  markView(sessionView, { column: run.events.length, chosen: [i, k] });
}
