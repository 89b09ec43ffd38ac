// The chart's words as lists of symbols, and what can be seen from them. All of it stands in the chart; nothing is worked out by rules here.
export const cellNumber = (i, k) => k * (k - 1) / 2 + i;

// Every symbol of a cell, in rising order.
export function symbolsOf(word) {
  const found = [], halves = [Number(word & 0xffffffffn), Number(word >> 32n)];
  halves.forEach((half, high) => { for (let bit = 0; bit < 32; bit++) if (half >>> bit & 1) found.push(32 * high + bit); });
  return found;
}

// Every stretch of n events, the longest first.
export function stretchesOf(n) {
  const all = [];
  for (let length = n; length >= 1; length--) for (let i = 0; i + length <= n; i++) all.push([i, i + length]);
  return all;
}

// The stretches that are this symbol, the longest first.
export const stretchesWith = (cells, n, symbol) => stretchesOf(n).filter(([i, k]) => cells[cellNumber(i, k)].includes(symbol));

// Of these only the ones that lie in no other.
export function widest(stretches) {
  const kept = [];
  for (const [i, k] of stretches) if (!kept.some(([a, b]) => a <= i && k <= b)) kept.push([i, k]);
  return kept;
}

export const mostIn = cells => cells.reduce((most, found) => Math.max(most, found.length), 0);

// The side of the square in which each symbol has its own place.
export const sideOf = symbols => symbols <= 4 ? 2 : symbols <= 16 ? 4 : 8;

// Colours go by how many findings a stretch has; these are the least numbers of each step.
export const STEPS = [0, 1, 2, 3, 5, 9, 17, 33];
export const stepOf = count => STEPS.findLastIndex(least => count >= least);
