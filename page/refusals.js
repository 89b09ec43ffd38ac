// Each refusal in words: what is wrong, where, and what to do about it.
import { some, told } from "./dom.js";
import { deadOf, headerOf, ruleText, rulesOf } from "./grammar.js";

const hex = bytes => Array.from(bytes, byte => byte.toString(16).padStart(2, "0")).join(" ");

function rangeText({ symbols, leaves, pairs, flag }) {
  const wrong = [];
  if (symbols < 1 || symbols > 64) wrong.push(`${symbols} symbols, where 1 to 64 are possible`);
  if (leaves > 512) wrong.push(`${told(leaves)} event rules, where at most 512 are possible`);
  if (pairs > 256) wrong.push(`${told(pairs)} pair rules, where at most 256 are possible`);
  if (flag > 1) wrong.push(`the flag ${flag}, which can be 0 or 1`);
  return `The image says: ${wrong.join("; ")}.`;
}

function deadText({ grammar, names }) {
  const { barren, lost } = deadOf(rulesOf(grammar), headerOf(grammar).symbols);
  const listed = symbols => symbols.map(symbol => names.long(symbol)).join(", ");
  const parts = [];
  if (barren.length) parts.push(`No rules lead to events from ${listed(barren)}.`);
  if (lost.length) parts.push(`No rules lead from symbol 0 to ${listed(lost)}.`);
  return parts.join(" ");
}

function symbolText({ grammar, names, rule }) {
  return `${ruleText(rulesOf(grammar)[rule], names)}. The grammar has ${some(headerOf(grammar).symbols, "symbol")}, with the numbers from 0 on.`;
}

function orderText({ grammar, names, rule }) {
  const rules = rulesOf(grammar);
  return `${ruleText(rules[rule], names)}. It stands behind ${ruleText(rules[rule - 1], names)}.`;
}

// What is said of each: the refusal itself, where the fault is, and what helps.
const REFUSALS = {
  1: ["the grammar image has fewer than 10 bytes", ({ grammar }) => `The file has ${some(grammar.length, "byte")}.`,
    "Choose the whole image; perhaps the file was cut short, or is another one."],
  2: ["the file does not begin with the letters ESG", ({ grammar }) => `It begins with ${hex(grammar.slice(0, 3))}; an image with 45 53 47.`,
    "This is no grammar image. Choose the right file."],
  3: ["the image's version is neither 1 nor 2", ({ grammar }) => `It is ${told(headerOf(grammar).version)}.`,
    "Ask for the image in version 1 or 2, or for a newer reader."],
  4: ["a number at the head of the image is out of range", ({ grammar }) => rangeText(headerOf(grammar)),
    "Make the grammar smaller, or mend the number."],
  5: ["the image has the wrong length", ({ grammar, grammarSize }) =>
    `It has ${some(grammarSize, "byte")}; by its head it would have ${told(headerOf(grammar).length)}.`,
    "Choose the whole image; or mend the numbers of rules at its head."],
  6: ["a rule has a symbol that is not there", symbolText, "Mend the symbol in this rule, or the number of symbols."],
  7: ["a rule is not above the one before it", orderText,
    "Sort the rules of each kind by symbol, then by event or by left and right symbol, and leave out what stands twice."],
  8: ["the record has more than 96 events", ({ recordSize }) => `It has ${told(Math.ceil(recordSize / 2))}.`,
    "Part the record, for instance by shift, and read each part."],
  12: ["no reading has this number", () => "", "Choose a smaller number."],
  13: ["the number is at the limit", () => "", "Readings from number 4,294,967,295 on cannot be asked for."],
  14: ["the event file has an odd number of bytes", ({ recordSize }) => `It has ${some(recordSize, "byte")}; each event is two, the low one first.`,
    "Choose the whole file; perhaps it was cut short, or is another one."],
  15: ["some symbol can stand in no reading of any record", deadText,
    "Write a rule for such a symbol, or put the right one in its place; where nothing leads to it, a rule with it as a part, or one symbol less."],
  17: ["the session is full: it has 32 events", () => "", "Take an event back, or begin anew."],
  18: ["there is no event to take back", () => "", "Press an event first."],
};

// fault: the refusal's number and rule, and what was handed in.
export function refusalOf(fault) {
  const [words, where, help] = REFUSALS[fault.refusal] ?? ["the reader does not answer", () => "", "This should not happen. Please tell the makers."];
  return { title: `Refused, ${fault.refusal}: ${words}`, where: where(fault), help };
}
