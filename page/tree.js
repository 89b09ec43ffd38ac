// A reading's tree, from its script: drawn over the events, told in words, and beside another one.
import { cut, draw, make, span } from "./dom.js";
import { cellNumber } from "./cells.js";
import { isLeaf, ruleText } from "./grammar.js";
import { stripOf } from "./picture.js";

const STEP = 38, TREE_MARGIN = 10, HEAD = 24;

// The nodes from the root, a node before its parts, as they stand in the script.
export function treeOf(script, rules, n) {
  let at = 0;
  const node = (i, k) => {
    const [rule, split] = [rules[script[at++]], script[at++]];
    return { rule, symbol: rule.symbol, split, i, k, parts: isLeaf(rule) ? [] : [node(i, split), node(split, k)] };
  };
  return script.length ? node(0, n) : undefined;
}

export const nodesOf = tree => tree ? [tree, ...tree.parts.flatMap(nodesOf)] : [];
const nodeKey = node => `${node.rule.number} ${node.i} ${node.split} ${node.k}`;

// The nodes of one reading that the other does not have: another rule, stretch or split.
export function differing(tree, other) {
  const kept = new Set(nodesOf(other).map(nodeKey));
  return new Set(nodesOf(tree).filter(node => !kept.has(nodeKey(node))));
}

// cell -> symbol -> how the chart lights it: the tree's nodes, and those that only the other tree has
export function litBy(tree, other) {
  const lit = new Map();
  const light = (kind, { i, k, symbol }) => {
    const cell = cellNumber(i, k);
    lit.set(cell, (lit.get(cell) ?? new Map()).set(symbol, kind));
  };
  for (const node of nodesOf(other)) light("other", node);
  for (const node of nodesOf(tree)) light("lit", node);
  return lit;
}

// A node stands over the middle of its parts, one step above the higher of them; so two of one height never overlap.
function placed(tree, width) {
  const place = node => {
    node.parts.forEach(place);
    node.height = Math.max(0, ...node.parts.map(part => part.height + 1));
    node.x = node.parts.length ? (node.parts[0].x + node.parts[1].x) / 2 : TREE_MARGIN + (node.i + .5) * width;
  };
  place(tree);
  return node => HEAD + (tree.height - node.height) * STEP;
}

// The picture for all trees of a record: the events at its foot stay, so that a turn to another reading is immediate.
export function newTreePicture({ events, names, symbols }) {
  const written = [...Array.from({ length: symbols }, (_, symbol) => names.short(symbol)), ...Array.from(events, names.event)];
  const letters = Math.min(14, Math.max(4, ...written.map(name => name.length))), width = letters * 7 + 16;
  const inside = draw("g"), strip = draw("g", {}, ...stripOf(events, names, width, 42, TREE_MARGIN));
  const svg = draw("svg", { class: "picture tree", role: "img" }, inside, strip);
  return { svg, inside, strip, letters, width, whole: events.length * width + 2 * TREE_MARGIN };
}

// All edges of a kind are one path: a turn to another reading draws some hundred of them.
function edgesOf(nodes, y, floor, different) {
  const edges = ["", ""];
  for (const node of nodes) {
    const kind = different.has(node) ? 1 : 0, from = `M${node.x} ${y(node) + 10}`;
    for (const part of node.parts) edges[kind] += `${from}L${part.x} ${y(part) - 10}`;
    if (!node.parts.length) edges[0] += `${from}V${floor + 26}`;
  }
  const drawn = [draw("path", { class: "edge", d: edges[0] })];
  return edges[1] ? [...drawn, draw("path", { class: "edge differs", d: edges[1] })] : drawn;
}

// Draws a tree into the picture, and gives its size. different: the nodes to be marked.
export function drawTree({ svg, inside, strip, letters, width, whole }, tree, names, different, label) {
  const y = placed(tree, width), floor = HEAD + tree.height * STEP, nodes = nodesOf(tree), size = [whole, floor + 66];
  const drawn = nodes.map(node => {
    const name = cut(names.short(node.symbol), letters), half = Math.min(width - 6, name.length * 7 + 12) / 2;
    const told = `${names.long(node.symbol)}, ${span(node.i, node.k)}, ${ruleText(node.rule, names)}`;
    return draw("g", { class: different.has(node) ? "node differs" : "node", "data-node": `${node.symbol} ${node.i} ${node.k}` },
      draw("rect", { x: node.x - half, y: y(node) - 10, width: 2 * half, height: 20, rx: 3 }),
      draw("text", { x: node.x, y: y(node) + 4 }, name), draw("title", {}, told));
  });
  inside.replaceChildren(...edgesOf(nodes, y, floor, different), ...drawn);
  svg.setAttribute("viewBox", `0 0 ${size[0]} ${size[1]}`);
  svg.setAttribute("aria-label", label);
  strip.setAttribute("transform", `translate(0 ${floor})`);
  return size;
}

// The script in words: a list in a list, so that it is heard in the same order as it is read.
export function treeList(tree, { events, names }, different) {
  const item = node => {
    const { rule, i, k, split } = node;
    const told = isLeaf(rule) ? `${names.long(node.symbol)} is ${names.longEvent(events[i])} at place ${k}`
      : `${names.long(node.symbol)}, ${span(i, k)}: ${names.long(rule.left)} up to event ${split}, then ${names.long(rule.right)}`;
    const words = make("span", { class: different.has(node) ? "differs" : "" }, told, make("small", {}, ` ${ruleText(rule, names)}`));
    return make("li", {}, words, ...node.parts.length ? [make("ul", {}, ...node.parts.map(item))] : []);
  };
  return make("ul", { class: "words" }, item(tree));
}
