// A grammar image read for display: its header and its rules by number. Whether it is proper is for the reader to say, not for this.
const wordAt = (bytes, at) => (bytes[at] ?? 0) + 256 * (bytes[at + 1] ?? 0);

export function headerOf(image) {
  const version = wordAt(image, 3), [leaves, pairs] = [wordAt(image, 6), wordAt(image, 8)];
  const start = version === 2 ? 11 : 10;
  return { version, symbols: image[5], leaves, pairs, flag: version === 2 ? image[10] : 0, start, length: start + 3 * (leaves + pairs) };
}

// The rules of an image whose length is right.
export function rulesOf(image) {
  const { leaves, pairs, start } = headerOf(image);
  return Array.from({ length: leaves + pairs }, (_, number) => {
    const at = start + 3 * number, symbol = image[at];
    if (number < leaves) return { number, symbol, event: wordAt(image, at + 1) };
    return { number, symbol, left: image[at + 1], right: image[at + 2] };
  });
}

export const isLeaf = rule => rule.event !== undefined;
export const partsText = (rule, names) => isLeaf(rule) ? `event ${names.event(rule.event)}` : `${names.short(rule.left)} ${names.short(rule.right)}`;
export const ruleText = (rule, names) => `rule ${rule.number}: ${names.short(rule.symbol)} → ${partsText(rule, names)}`;
export const eventsKnown = rules => [...new Set(rules.filter(isLeaf).map(rule => rule.event))].sort((a, b) => a - b);

// Rules are taken again and again until none of them adds a symbol.
function closed(first, rules, more) {
  const found = new Set(first);
  for (let before = -1; before !== found.size;) {
    before = found.size;
    for (const rule of rules) for (const symbol of more(rule, found)) found.add(symbol);
  }
  return found;
}

// Which symbols are at fault where the reader has found that some are: those that lead to no events, and those that nothing leads to.
export function deadOf(rules, symbols) {
  const ending = closed([], rules, (rule, found) => isLeaf(rule) || found.has(rule.left) && found.has(rule.right) ? [rule.symbol] : []);
  const reached = closed([0], rules, (rule, found) => !isLeaf(rule) && found.has(rule.symbol) ? [rule.left, rule.right] : []);
  const all = Array.from({ length: symbols }, (_, symbol) => symbol);
  return { barren: all.filter(symbol => !ending.has(symbol)), lost: all.filter(symbol => !reached.has(symbol)) };
}
