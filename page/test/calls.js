// Recorded calls, as page/test/record.c writes them, made again.
import { callerOf, reference, slice } from "../reader.js";

const SERVICES = ["test", "judge", "count", "reading", "page", "check", "number", "begin", "add", "take_back"];
const ARRAYS = { 1: Uint8Array, 2: Uint16Array, 4: Uint32Array, 8: BigUint64Array };
const [NUMBER, SLICE] = [0, 1];

// What must have occurred, or too little is compared: every service, and every refusal that a service of the library gives.
const REFUSALS = [0, 1, 2, 3, 4, 5, 6, 7, 8, 9, 10, 11, 12, 13, 15, 17, 18];

// The service and the arguments of a request, its arrays as copies.
function requestOf(bytes) {
  const view = new DataView(bytes.buffer, bytes.byteOffset, bytes.byteLength);
  const given = [];
  let at = 2;
  while (given.length < bytes[1]) {
    const kind = bytes[at], size = bytes[at + 1], count = view.getUint32(at + 2, true);
    at += 6;
    if (kind === NUMBER) {
      given.push(count);
      continue;
    }
    const array = new ARRAYS[size](bytes.slice(at, at + size * count).buffer);
    given.push(kind === SLICE ? slice(array) : reference(array));
    at += size * count;
  }
  return { service: SERVICES[bytes[0]], given };
}

// A call with words behind all that is lent: an argument more than the service has, which it does not see, and must find unchanged.
function guarded(call, service, given) {
  const guard = new Uint8Array(4096).fill(0xa5);
  const refusal = call(service, ...given, reference(guard));
  if (!guard.every(byte => byte === 0xa5)) throw new Error(`${service} wrote behind what was lent`);
  return refusal;
}

// The number that is returned and every lent word afterwards, beside the answer that was recorded.
function equal(refusal, given, answer) {
  if (refusal !== answer[0]) return false;
  let at = 1;
  for (const { array } of given.filter(one => one.array)) {
    const bytes = new Uint8Array(array.buffer);
    for (let x = 0; x < bytes.length; x++) if (bytes[x] !== answer[at + x]) return false;
    at += bytes.length;
  }
  return at === answer.length;
}

// Each of the recorded calls in turn.
function* eachOf(bytes) {
  const view = new DataView(bytes.buffer, bytes.byteOffset, bytes.byteLength);
  for (let at = 0; at < bytes.length;) {
    const asked = view.getUint32(at, true), told = view.getUint32(at + 4, true);
    at += 8;
    yield { request: bytes.subarray(at, at + asked), answer: bytes.subarray(at + asked, at + asked + told) };
    at += asked + told;
  }
}

// Makes all calls of a recording again by the module: how many were equal, how many were not, and what never occurred.
export async function replay(module, recording) {
  const { instance } = await WebAssembly.instantiate(module, {});
  const call = callerOf(instance.exports);
  const services = new Set(), refusals = new Set();
  let passed = 0, failed = 0;
  for (const { request, answer } of eachOf(recording)) {
    const { service, given } = requestOf(request);
    const refusal = guarded(call, service, given);
    if (equal(refusal, given, answer)) passed++;
    else failed++;
    services.add(service);
    refusals.add(refusal);
  }
  const never = [...SERVICES.filter(one => !services.has(one)), ...REFUSALS.filter(one => !refusals.has(one)).map(one => `refusal ${one}`)];
  return { passed, failed, never };
}

export const sentence = ({ passed, failed, never }) =>
  `replayed ${passed + failed} calls: ${passed} equal, ${failed} different` + (never.length ? `, never: ${never.join(", ")}` : "");
