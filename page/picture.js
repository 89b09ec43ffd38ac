// The chart as a triangle: stretch (i, k) stands over the middle of its events, longer ones higher. A cell's colour tells how many findings
// it has; in it stand all of their names, or a mark for each symbol at the symbol's own place in a square.
import { cut, draw } from "./dom.js";
import { cellNumber, mostIn, stepOf, stretchesOf } from "./cells.js";

const LINE = 14, SIDE = 28, MARGIN = 10, NAME_MOST_SHOWN = 14;

// The mark of a symbol in a square cell of 26; side: how many marks stand beside each other.
export function markPath(symbol, side) {
  const step = 23.2 / side, size = (step * .8).toFixed(2), at = place => (1.6 + step * place).toFixed(2);
  return `M${at(symbol % side)} ${at(Math.floor(symbol / side))}h${size}v${size}h-${size}z`;
}

// Where every cell stands. In a row of names each cell is as high as the fullest one.
function placesOf({ cells, n, events, names, named }) {
  const written = [...[...new Set(cells.flat())].map(names.short), ...Array.from(events, names.event)];
  const longest = Math.max(4, ...written.map(name => name.length));
  const width = named ? Math.min(NAME_MOST_SHOWN, longest) * 7 + 14 : SIDE;
  const tops = [], heights = [];
  let top = MARGIN;
  for (let length = n; length >= 1; length--) {
    const row = Array.from({ length: n - length + 1 }, (_, i) => cells[cellNumber(i, i + length)]);
    [tops[length], heights[length]] = [top, named ? Math.max(1, mostIn(row)) * LINE + 10 : SIDE];
    top += heights[length];
  }
  return {
    width, whole: [n * width + 2 * MARGIN, top + 40], floor: top,
    box: (i, k) => ({ x: MARGIN + (i + k - 1) / 2 * width + 1, y: tops[k - i] + 1, width: width - 2, height: heights[k - i] - 2 }),
  };
}

// data: cells, n, events, names, named, side. The picture has every cell at once; what stands in the cells comes by fill.
export function newPicture(data, label) {
  const places = placesOf(data), [width, height] = places.whole;
  const stretches = stretchesOf(data.n), rects = [], contents = new Map(), inside = draw("g");
  const svg = draw("svg", { class: "picture", viewBox: `0 0 ${width} ${height}`, role: "img", "aria-label": label });
  for (const [i, k] of stretches) {
    const rect = draw("rect", { ...places.box(i, k), rx: 2, "data-cell": `${i} ${k}`, "data-found": data.cells[cellNumber(i, k)].join(" ") });
    rects[cellNumber(i, k)] = { rect, words: "" };
    svg.append(rect);
  }
  svg.append(inside);
  const strip = stripOf(data.events, data.names, places.width, places.floor + 20, MARGIN);
  svg.append(...strip);
  return { ...data, stretches, places, svg, rects, contents, inside, strip };
}

// The events in a row, each with its place under it.
export function stripOf(events, names, width, y, margin) {
  return Array.from(events, (event, x) => {
    const middle = { x: margin + (x + .5) * width };
    return draw("g", { class: "event", "data-place": x + 1 },
      draw("rect", { x: margin + x * width + 1, y: y - 15, width: width - 2, height: 34, rx: 2 }),
      draw("text", { ...middle, y }, cut(names.event(event), Math.max(3, Math.floor((width - 4) / 6.6)))),
      draw("text", { ...middle, y: y + 14, class: "place" }, String(x + 1)), draw("title", {}, `${names.longEvent(event)}, place ${x + 1}`));
  });
}

// marked: chosen (i, k), symbol, lit: cell -> symbol -> lit or other, by the readings shown, column: the end of the column that has just come.
export function mark(picture, marked) {
  picture.marked = marked;
  for (const [i, k] of picture.stretches) {
    const place = picture.rects[cellNumber(i, k)], words = wordsOf(picture, i, k);
    // most cells stay as they are, and a picture of 4,656 cells must turn at once
    if (words !== place.words) place.rect.setAttribute("class", place.words = words);
  }
  picture.strip.forEach((group, x) => {
    const within = marked.chosen ? marked.chosen[0] <= x && x < marked.chosen[1] : marked.column === x + 1;
    group.setAttribute("class", within ? "event within" : "event");
  });
  picture.inside.replaceChildren();
  picture.contents.clear();
}

function wordsOf({ cells, marked: { chosen, symbol, lit, column } }, i, k) {
  const cell = cellNumber(i, k), found = cells[cell];
  let words = `cell step${stepOf(found.length)}`;
  if (lit?.has(cell)) words += ` ${[...new Set(lit.get(cell).values())].join(" ")}`;
  if (column === k) words += " came";
  if (symbol !== undefined && found.includes(symbol)) words += " holds";
  if (chosen && chosen[0] === i && chosen[1] === k) words += " chosen";
  return words;
}

// What stands in one cell.
function contentOf(picture, i, k) {
  const { names, named, marked } = picture, cell = cellNumber(i, k), found = picture.cells[cell];
  const { x, y, width, height } = picture.places.box(i, k), lit = marked.lit?.get(cell);
  const kind = symbol => (lit?.get(symbol) ?? "") + (symbol === marked.symbol ? " holds" : "");
  const group = draw("g", { class: "content", transform: `translate(${x} ${y})`, "data-content": `${i} ${k}` });
  if (named) {
    const first = (height - found.length * LINE) / 2 + 10.5;
    found.forEach((symbol, line) => group.append(draw("text", { class: kind(symbol), x: width / 2, y: first + line * LINE },
      cut(names.short(symbol), NAME_MOST_SHOWN))));
    return group;
  }
  const by = new Map();
  for (const symbol of found) by.set(kind(symbol), (by.get(kind(symbol)) ?? "") + markPath(symbol, picture.side));
  for (const [words, d] of by) group.append(draw("path", { class: words, d }));
  return group;
}

// Draws what stands in the cells of a part of the picture, and drops what stands outside of it: the largest chart has 297,984 findings.
export function fill(picture, left, top, right, bottom) {
  const { contents, inside, places } = picture;
  if (right < left && !contents.size) return;
  for (const [i, k] of picture.stretches) {
    const cell = cellNumber(i, k), { x, y, width, height } = places.box(i, k);
    const seen = x < right && x + width > left && y < bottom && y + height > top && picture.cells[cell].length > 0;
    if (seen && !contents.has(cell)) {
      contents.set(cell, contentOf(picture, i, k));
      inside.append(contents.get(cell));
    } else if (!seen && contents.has(cell)) {
      contents.get(cell).remove();
      contents.delete(cell);
    }
  }
}
