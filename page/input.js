// Where grammar, record and names come from: the list of examples, files chosen or dropped, and what is typed.
import { byId, cut, make, numbersOf, some, told } from "./dom.js";
import { NAMES_MOST } from "./names.js";

// Of a file no more is read than decides: one byte more than the longest image, and one event more than the longest record, has.
export const GRAMMAR_READ = 2316, RECORD_READ = 194;
const TYPED_MOST = 20000;

export const bytesOfEvents = events => Uint8Array.from(events.flatMap(event => [event & 255, event >> 8]));
// A last event of which only one byte came counts too: a file of 193 bytes is too long, and not one of 96 events.
export const eventsOfBytes = bytes =>
  Uint16Array.from({ length: Math.ceil(bytes.length / 2) }, (_, x) => bytes[2 * x] + 256 * (bytes[2 * x + 1] ?? 0));

export function tellInput(text) {
  byId("inputTold").textContent = text;
}

const head = async (file, most) => new Uint8Array(await file.slice(0, most).arrayBuffer());

// load(parts) takes any of grammar, record and names, with the sizes of the files.
async function take(file, kind, load) {
  try {
    if (kind === "names") {
      if (file.size <= NAMES_MOST) return load({ namesText: await file.text() });
      return tellInput(`${cut(file.name, 40)} has ${some(file.size, "byte")}: too long for names, of which ${told(NAMES_MOST)} are read.`);
    }
    const most = kind === "grammar" ? GRAMMAR_READ : RECORD_READ, bytes = await head(file, most);
    const long = file.size > most ? ` Of its ${some(file.size, "byte")} the first ${told(most)} were read; the rest changes nothing.` : "";
    tellInput(`The ${kind} is ${cut(file.name, 40)}.${long}`);
    load(kind === "grammar" ? { grammar: bytes, grammarSize: file.size } : { record: bytes, recordSize: file.size });
  } catch (error) {
    tellInput(`${cut(file.name, 40)} could not be read.`);
  }
}

// A dropped file is known by its first letters or by its name; anything else is a record.
async function kindOf(file) {
  if (/\.(names|txt)$/i.test(file.name)) return "names";
  if (/\.events$/i.test(file.name)) return "record";
  return /\.grammar$/i.test(file.name) || await file.slice(0, 3).text() === "ESG" ? "grammar" : "record";
}

function takeTyped(load) {
  const text = byId("typed").value;
  if (text.length > TYPED_MOST) return tellInput(`The text has ${told(text.length)} letters: too long for a record.`);
  const { numbers, wrong } = numbersOf(text, 65535);
  if (wrong !== undefined) return tellInput(`“${wrong}” is not an event: those are whole numbers from 0 to 65,535, with spaces between.`);
  const bytes = bytesOfEvents(numbers);
  tellInput(`The record is as typed: ${some(numbers.length, "event")}.`);
  load({ record: bytes.slice(0, RECORD_READ), recordSize: bytes.length });
}

function takeNames(load) {
  const text = byId("names").value;
  if (text.length > NAMES_MOST) return tellInput(`The names have ${told(text.length)} letters; at most ${told(NAMES_MOST)} are read.`);
  load({ namesText: text });
}

export function setUpInput(examples, load) {
  byId("example").append(make("option", { value: "" }, "your own"), ...examples.map(({ name }, x) => make("option", { value: x }, name)));
  byId("example").addEventListener("change", () => {
    const chosen = examples[byId("example").value];
    if (chosen) load(partsOfExample(chosen));
  });
  const files = { grammarFile: "grammar", recordFile: "record", namesFile: "names" };
  for (const [id, kind] of Object.entries(files)) {
    byId(id).addEventListener("change", async () => {
      const [file] = byId(id).files;
      if (file) await take(file, kind, load);
      byId(id).value = "";
    });
  }
  byId("typedForm").addEventListener("submit", submitted => { submitted.preventDefault(); takeTyped(load); });
  // a text of several lines is pasted as it is; Enter reads it
  byId("typed").addEventListener("keydown", key => {
    if (key.key !== "Enter" || key.shiftKey) return;
    key.preventDefault();
    takeTyped(load);
  });
  byId("names").addEventListener("change", () => takeNames(load));
  document.addEventListener("dragover", drag => { drag.preventDefault(); document.body.classList.add("dropping"); });
  document.addEventListener("dragleave", drag => { if (!drag.relatedTarget) document.body.classList.remove("dropping"); });
  document.addEventListener("drop", async drop => {
    drop.preventDefault();
    document.body.classList.remove("dropping");
    for (const file of drop.dataTransfer.files) await take(file, await kindOf(file), load);
  });
}

export const partsOfExample = ({ grammar, events, names }) =>
  ({ grammar, grammarSize: grammar.length, record: events, recordSize: events.length, namesText: names, isExample: true });

export function showInput({ record, recordSize, namesText }, example) {
  byId("example").value = example;
  byId("names").value = namesText;
  byId("typed").value = recordSize > RECORD_READ || recordSize % 2 ? "" : [...eventsOfBytes(record)].join(" ");
}
