// Services of c/reader.h in WebAssembly, those that the page asks: plain data in, plain data out. docs/REFERENCE.md says what each does.
// What is lent for a call lies behind the module's own memory, and no address outlives the call; the instance is the only state.

// An argument that is not a number is an array: a slice passes as an address and a length in elements, a reference as an address alone.
export const slice = array => ({ array, counted: true });
export const reference = array => ({ array, counted: false });

const bytesOf = array => new Uint8Array(array.buffer, array.byteOffset, array.byteLength);

// Where each array of a call goes: one behind the other from the base on, each at a multiple of 8, as its words may be 64 bits wide.
// Lengths are 64 bits wide, addresses 32.
function layOut(base, given) {
  const words = [], lent = [];
  let end = base;
  for (const one of given) {
    if (typeof one === "number") {
      words.push(one);
      continue;
    }
    const at = Math.ceil(end / 8) * 8;
    words.push(at);
    if (one.counted) words.push(BigInt(one.array.length));
    lent.push({ at, bytes: bytesOf(one.array) });
    end = at + one.array.byteLength;
  }
  return { words, lent, end };
}

function makeRoom(memory, end) {
  const missing = Math.ceil((end - memory.buffer.byteLength) / 65536);
  if (missing > 0) memory.grow(missing);
}

// From a module's exports to a function that calls a service: the arrays are copied in before the call and back after it.
// Of the returned word the low byte alone is the refusal; what is above it says nothing.
export function callerOf(exports) {
  const { memory, __heap_base: base } = exports;
  return (service, ...given) => {
    const { words, lent, end } = layOut(base.value, given);
    makeRoom(memory, end);
    for (const { at, bytes } of lent) new Uint8Array(memory.buffer).set(bytes, at);
    const answer = exports["reader_" + service](...words);
    for (const { at, bytes } of lent) bytes.set(new Uint8Array(memory.buffer, at, bytes.length));
    return answer & 0xff;
  };
}

// Bytes past the first 2,316 of an image change no answer, and any record of more than 96 events gets the same one: so no more is copied,
// however large a file is. They are copies, so that a caller's own arrays are never written.
const MOST_EVENTS = 96;
const imageOf = image => slice(Uint8Array.from(image.subarray(0, 2316)));
const recordOf = events => slice(Uint16Array.from(events.subarray(0, MOST_EVENTS + 1)));

// The words that are needed; for a record that is too long none, as it is refused for that first.
const cells = n => n > MOST_EVENTS ? 0 : n * (n + 1) / 2;
const scriptWords = n => n > MOST_EVENTS || n === 0 ? 0 : 2 * (2 * n - 1);

const SESSION_WORDS = 528;

const u8 = (count = 1) => new Uint8Array(count);
const u16 = (count = 1) => new Uint16Array(count);
const u32 = (count = 1) => new Uint32Array(count);
const u64 = (count = 1) => new BigUint64Array(count);

function overImages(call) {
  const test = image => {
    const rule = u16(), symbols = u64(), leaves = u64(), pairs = u64();
    const refusal = call("test", imageOf(image), ...[rule, symbols, leaves, pairs].map(reference));
    return { refusal, rule: rule[0], symbols: Number(symbols[0]), leaves: Number(leaves[0]), pairs: Number(pairs[0]) };
  };
  // a table has a word for each cell and symbol; of a refused image there are no symbols, and it is refused again
  const tableFor = (image, events) => u32(test(image).symbols * cells(events.length));
  return { test, tableFor };
}

function overRecords(call, tableFor) {
  const judge = (image, events) => {
    const chart = u64(cells(events.length)), rule = u16(), admitted = u8(), items = u64(), firings = u64();
    const refusal = call("judge", imageOf(image), recordOf(events), slice(chart), ...[rule, admitted, items, firings].map(reference));
    return { refusal, rule: rule[0], admitted: admitted[0] === 1, items: items[0], firings: firings[0], chart };
  };
  const count = (image, events) => {
    const table = tableFor(image, events), rule = u16(), total = u32();
    const refusal = call("count", imageOf(image), recordOf(events), slice(table), reference(rule), reference(total));
    return { refusal, rule: rule[0], total: total[0], table };
  };
  return { judge, count };
}

function overReadings(call, tableFor) {
  // the scripts are none where it is refused
  const page = (image, events, k, m) => {
    const words = scriptWords(events.length), room = u16(m * words), rule = u16(), written = u32();
    const refusal = call("page", imageOf(image), recordOf(events), k, m, slice(tableFor(image, events)), slice(room),
      reference(rule), reference(written));
    const scripts = Array.from({ length: written[0] }, (_, x) => room.slice(x * words, (x + 1) * words));
    return { refusal, rule: rule[0], scripts };
  };
  const number = (image, events, script) => {
    const rule = u16(), reading = u32();
    const refusal = call("number", imageOf(image), recordOf(events), slice(Uint16Array.from(script)), slice(tableFor(image, events)),
      reference(rule), reference(reading));
    return { refusal, rule: rule[0], reading: reading[0] };
  };
  return { page, number };
}

// A session goes in as it is and comes back as another one.
function overSessions(call) {
  const copyOf = ({ words, count }) => {
    if (words.length !== SESSION_WORDS) throw new RangeError("a session has 528 words");
    return { words: words.slice(), count: BigUint64Array.of(count) };
  };
  const told = ({ words, count }) => ({ words, count: count[0] });
  const begin = () => {
    const session = { words: u64(SESSION_WORDS), count: u64() };
    call("begin", reference(session.words), reference(session.count));
    return told(session);
  };
  const add = (image, before, event) => {
    const session = copyOf(before), rule = u16(), admitted = u8(), firings = u64();
    const refusal = call("add", imageOf(image), reference(session.words), reference(session.count), event,
      ...[rule, admitted, firings].map(reference));
    return { refusal, rule: rule[0], admitted: admitted[0] === 1, firings: firings[0], session: told(session) };
  };
  const takeBack = before => {
    const session = copyOf(before);
    const refusal = call("take_back", reference(session.words), reference(session.count));
    return { refusal, session: told(session) };
  };
  return { begin, add, takeBack };
}

// The services over the bytes of reader.wasm.
export async function open(bytes) {
  const { instance } = await WebAssembly.instantiate(bytes, {});
  const call = callerOf(instance.exports);
  const { test, tableFor } = overImages(call);
  return { test, ...overRecords(call, tableFor), ...overReadings(call, tableFor), ...overSessions(call) };
}
