// The verdict in words and the numbers beside it; where something is refused, what, where and what helps.
import { byId, make, some, told, toldCount } from "./dom.js";
import { refusalOf } from "./refusals.js";

function verdictText({ admitted, events, names }) {
  const start = names.long(0);
  if (!events.length && admitted) return "Admitted: a record without events is proper by this grammar.";
  if (!events.length) return "Not admitted: the record has no events, and this grammar admits no quiet shift.";
  return admitted ? `Admitted: the whole record is ${start}.` : `Not admitted: the whole record is not ${start} by any reading.`;
}

const fact = (name, value, id) => make("div", {}, make("dt", {}, name), make("dd", { id }, value));

export function showVerdict(shown) {
  byId("verdict").textContent = verdictText(shown);
  byId("verdict").className = `verdict ${shown.admitted ? "yes" : "no"}`;
  byId("fault").replaceChildren();
  const grammar = [some(shown.symbols, "symbol"), some(shown.leaves, "event rule"), some(shown.pairs, "pair rule")];
  if (shown.flag) grammar.push("quiet shift admitted");
  byId("numbers").replaceChildren(fact("Readings", toldCount(shown.total), "total"), fact("Events", told(shown.events.length), "eventCount"),
    fact("Findings", told(shown.items), "items"), fact("Firings", told(shown.firings), "firings"), fact("Grammar", grammar.join(", "), "size"));
}

export function showRefusal(fault) {
  const { title, where, help } = refusalOf(fault);
  byId("verdict").textContent = title;
  byId("verdict").className = "verdict refused";
  byId("numbers").replaceChildren();
  byId("fault").replaceChildren(...where ? [make("p", { id: "where" }, where)] : [], make("p", { id: "help" }, `What helps: ${help}`));
}

// What the page was made from, so that a paper tells it too. Of a longer file the first bytes decide, and these are what was read.
export function showSums({ grammar, grammarSize, record, recordSize, sums }) {
  const line = (name, bytes, size, sum) => [make("dt", {}, `${name}, SHA-256`), make("dd", {}, make("code", { id: `sum${name}` }, sum),
    ` of ${bytes.length < size ? `the first ${told(bytes.length)} of ` : ""}${some(size, "byte")}`)];
  byId("sums").replaceChildren(...line("Grammar", grammar, grammarSize, sums.grammar), ...line("Record", record, recordSize, sums.record));
}
