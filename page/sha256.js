// The SHA-256 of some bytes, by FIPS 180-4. A browser has its own, but not for every page that is opened from a disk.
const primes = count => {
  const found = [];
  for (let next = 2; found.length < count; next++) if (found.every(prime => next % prime)) found.push(next);
  return found;
};
// The first 32 bits behind the point of a root; each is exact in a double for primes as small as these.
const fraction = root => (root - Math.floor(root)) * 4294967296 >>> 0;
const ROUNDS = primes(64).map(prime => fraction(Math.cbrt(prime)));
const FIRST = primes(8).map(prime => fraction(Math.sqrt(prime)));
const turned = (x, by) => x >>> by | x << 32 - by;

function blockAdded(state, block) {
  const words = Array.from({ length: 16 }, (_, x) => block.getUint32(4 * x));
  for (let x = 16; x < 64; x++) {
    const [u, v] = [words[x - 15], words[x - 2]];
    words[x] = words[x - 16] + words[x - 7] + (turned(u, 7) ^ turned(u, 18) ^ u >>> 3) + (turned(v, 17) ^ turned(v, 19) ^ v >>> 10) | 0;
  }
  let [a, b, c, d, e, f, g, h] = state;
  for (let x = 0; x < 64; x++) {
    const one = h + (turned(e, 6) ^ turned(e, 11) ^ turned(e, 25)) + (e & f ^ ~e & g) + ROUNDS[x] + words[x] | 0;
    const two = (turned(a, 2) ^ turned(a, 13) ^ turned(a, 22)) + (a & b ^ a & c ^ b & c) | 0;
    [h, g, f, e, d, c, b, a] = [g, f, e, d + one | 0, c, b, a, one + two | 0];
  }
  return [a, b, c, d, e, f, g, h].map((word, x) => word + state[x] | 0);
}

export function sha256(bytes) {
  const padded = new Uint8Array(Math.ceil((bytes.length + 9) / 64) * 64);
  padded.set(bytes);
  padded[bytes.length] = 128;
  new DataView(padded.buffer).setUint32(padded.length - 4, 8 * bytes.length);
  let state = FIRST;
  for (let at = 0; at < padded.length; at += 64) state = blockAdded(state, new DataView(padded.buffer, at, 64));
  return state.map(word => (word >>> 0).toString(16).padStart(8, "0")).join("");
}
