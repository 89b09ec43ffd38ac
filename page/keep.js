// What can be kept: the pictures as SVG, all of it as one JSON text, and paper.
import { LIMIT, byId, draw, make } from "./dom.js";
import { scriptOf } from "./readings.js";
import { wholeOf } from "./view.js";

// A file for the one who looks at the page; it comes from the page itself and goes nowhere else.
function save(name, type, text) {
  const address = URL.createObjectURL(new Blob([text], { type }));
  const link = make("a", { href: address, download: name });
  document.body.append(link);
  link.click();
  link.remove();
  setTimeout(() => URL.revokeObjectURL(address), 10000);
}

// The page's own rules for pictures, in light colours, so that a saved picture looks as it does on paper.
function pictureRules() {
  const rules = Array.from(document.styleSheets).flatMap(sheet => Array.from(sheet.cssRules)).filter(rule => rule.selectorText);
  return rules.filter(({ selectorText }) => selectorText === ":root" || selectorText.includes(".picture")).map(rule => rule.cssText).join("\n");
}

export function svgText(svg, title) {
  const copy = svg.cloneNode(true);
  const [, , width, height] = copy.getAttribute("viewBox").split(" ");
  [["width", width], ["height", height]].forEach(pair => copy.setAttribute(...pair));
  copy.prepend(draw("title", {}, title), draw("style", {}, pictureRules()));
  return `<?xml version="1.0" encoding="UTF-8"?>\n${new XMLSerializer().serializeToString(copy)}\n`;
}

const titleOf = ({ sums }, what) => `${what}; grammar ${sums.grammar}, record ${sums.record} (SHA-256)`;

// Numbers of 64 bits stand as decimal texts: a JSON number would lose the low digits.
export function allOf(shown, { k, other, stretch, symbol }) {
  const { grammar, record, sums, recordSize, grammarSize, namesText } = shown;
  // of a longer file the first bytes decide, and the checksum is of these
  const made = {
    grammar: { sha256: sums.grammar, ofFirst: grammar.length, bytes: grammarSize },
    record: { sha256: sums.record, ofFirst: record.length, bytes: recordSize },
  };
  const head = { format: "record-inspector 1", ...made, names: namesText };
  if (shown.refusal) return { ...head, refusal: shown.refusal, rule: shown.rule };
  const readings = [k, other].filter(number => number !== undefined && number < shown.total)
    .map(number => ({ number, script: Array.from(scriptOf(shown, number)) }));
  return {
    ...head, refusal: 0, verdict: shown.admitted ? "admitted" : "not admitted",
    counts: {
      readings: shown.total, orMore: shown.total === LIMIT, events: shown.events.length,
      findings: String(shown.items), firings: String(shown.firings),
    },
    events: Array.from(shown.events), chart: Array.from(shown.chart, String), chosen: { stretch: stretch ?? null, symbol: symbol ?? null }, readings,
  };
}

// now() gives what is shown and what is chosen at this moment.
export function setUpKeep(chartView, now) {
  byId("saveChart").addEventListener("click", () => {
    const svg = wholeOf(chartView);
    if (svg) save("chart.svg", "image/svg+xml", svgText(svg, titleOf(now().shown, "Chart")));
  });
  byId("saveTree").addEventListener("click", () => {
    const svg = document.querySelector("#tree svg"), { shown, chosen } = now();
    if (svg) save(`reading-${chosen.k}.svg`, "image/svg+xml", svgText(svg, titleOf(shown, `Reading ${chosen.k}`)));
  });
  byId("saveAll").addEventListener("click", () => {
    const { shown, chosen } = now();
    save("record.json", "application/json", `${JSON.stringify(allOf(shown, chosen), null, 1)}\n`);
  });
  byId("print").addEventListener("click", () => window.print());
}

export function showKeep(shown) {
  byId("saveChart").disabled = Boolean(shown.refusal) || !shown.events.length;
  byId("saveTree").disabled = Boolean(shown.refusal) || !shown.total || !shown.events.length;
}
