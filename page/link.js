// The view as the link's hash, so that a link opens the same view: grammar, record, names, readings, stretch and symbol.
import { GRAMMAR_READ, RECORD_READ } from "./input.js";
import { NAMES_MOST } from "./names.js";

const LINK_MOST = 250000, WAIT = 150;

const toText = bytes => btoa(String.fromCharCode(...bytes)).replaceAll("+", "-").replaceAll("/", "_").replaceAll("=", "");
const toBytes = text => Uint8Array.from(atob(text.replaceAll("-", "+").replaceAll("_", "/")), letter => letter.charCodeAt(0));
const number = text => /^\d{1,10}$/.test(text ?? "") ? Number(text) : undefined;

// Names are cut to what the page takes anyway; the bytes are no more than were read.
export function linkOf({ grammar, record, namesText }, { stretch, symbol, k, other }) {
  const parts = new URLSearchParams({ g: toText(grammar), r: toText(record), n: namesText });
  if (k) parts.set("k", k);
  if (other !== undefined) parts.set("o", other);
  if (stretch) parts.set("s", stretch.join("-"));
  if (symbol !== undefined) parts.set("a", symbol);
  return `#${parts}`;
}

// What a link says, or undefined where it says nothing that is understood.
export function viewOf(hash) {
  try {
    const parts = new URLSearchParams(hash.slice(1));
    if (hash.length > LINK_MOST || !parts.has("g")) return undefined;
    const grammar = toBytes(parts.get("g")).slice(0, GRAMMAR_READ), record = toBytes(parts.get("r") ?? "").slice(0, RECORD_READ);
    const namesText = (parts.get("n") ?? "").slice(0, NAMES_MOST), stretch = /^(\d{1,2})-(\d{1,2})$/.exec(parts.get("s") ?? "");
    const [k, other, symbol] = ["k", "o", "a"].map(name => number(parts.get(name)));
    return {
      parts: { grammar, grammarSize: grammar.length, record, recordSize: record.length, namesText },
      chosen: { k, other, symbol, stretch: stretch ? [Number(stretch[1]), Number(stretch[2])] : undefined },
    };
  } catch (error) {
    return undefined;
  }
}

let written = "", timer;

// Not at every step: a browser stops a page that changes its link too often.
export function keepLink(hash) {
  clearTimeout(timer);
  timer = setTimeout(() => {
    written = hash;
    location.replace(hash);
  }, WAIT);
}

// open(hash) is called for a link that another hand has put in.
export function followLink(opened) {
  addEventListener("hashchange", () => { if (location.hash !== written) opened(location.hash); });
}
