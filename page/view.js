// A chart in its frame: drawn, zoomed, chosen from by pointer and by keys. Used for the record and for a session.
import { byId, capital, make, some, span } from "./dom.js";
import { cellNumber, mostIn } from "./cells.js";
import { fill, mark, newPicture } from "./picture.js";
import { newZoom, zoomButtons } from "./zoom.js";

// Names are written where they can be read; with more events, or with more findings in a cell, marks stand for them.
const NAMED_EVENTS = 20, NAMED_FINDINGS = 16;
export const namedAtFirst = (cells, n) => n <= NAMED_EVENTS && mostIn(cells) <= NAMED_FINDINGS;

// What stands in the cells is drawn only where it is large enough to be seen, and only in the part of the picture that is.
function refill(view) {
  const { picture, frame, zoom } = view;
  if (!picture) return;
  const readable = view.whole || zoom.scale >= (picture.named ? .35 : .6);
  frame.classList.toggle("far", !readable);
  if (!readable) return fill(picture, 0, 0, -1, -1);
  if (view.whole) return fill(picture, -1, -1, Infinity, Infinity);
  const [left, top] = [frame.scrollLeft / zoom.scale, frame.scrollTop / zoom.scale];
  fill(picture, left, top, left + frame.clientWidth / zoom.scale, top + frame.clientHeight / zoom.scale);
}

// From the chosen stretch by a key: to the next one on either side, to a longer or a shorter one.
function stepped([i, k], key, n) {
  const by = { ArrowLeft: [-1, -1], ArrowRight: [1, 1], ArrowUp: [0, 1], ArrowDown: [0, -1] }[key];
  if (!by) return undefined;
  let [a, b] = [i + by[0], k + by[1]];
  if (key === "ArrowUp" && b > n) [a, b] = [i - 1, k];
  return a >= 0 && b <= n && a < b ? [a, b] : [i, k];
}

export function newView(frame, buttons, what, onchoose) {
  const view = { frame, picture: undefined, whole: false };
  view.zoom = newZoom(frame, () => refill(view));
  if (buttons) buttons.append(zoomButtons(view.zoom, what));
  let waiting = false;
  frame.addEventListener("scroll", () => {
    if (waiting) return;
    waiting = true;
    requestAnimationFrame(() => { waiting = false; refill(view); });
  });
  frame.addEventListener("click", event => {
    const cell = event.target.closest?.("[data-cell], [data-content]");
    if (cell) onchoose(...(cell.dataset.cell ?? cell.dataset.content).split(" ").map(Number));
  });
  frame.addEventListener("keydown", event => {
    const n = view.picture?.n, next = n && stepped(view.picture.marked.chosen ?? [0, n], event.key, n);
    if (!next || event.ctrlKey || event.altKey || event.metaKey) return;
    event.preventDefault();
    onchoose(...next);
    const { x, y, width, height } = view.picture.places.box(...next);
    view.zoom.see(x + width / 2, y + height / 2);
  });
  frame.addEventListener("pointerover", event => {
    const cell = event.target.closest?.("[data-cell], [data-content]");
    byId("hint").textContent = cell && view.picture ? hintOf(view.picture, cell) : "";
  });
  frame.addEventListener("pointerleave", () => { byId("hint").textContent = ""; });
  addEventListener("beforeprint", () => { view.whole = true; refill(view); });
  addEventListener("afterprint", () => { view.whole = false; refill(view); });
  return view;
}

function hintOf({ cells, names }, cell) {
  const [i, k] = (cell.dataset.cell ?? cell.dataset.content).split(" ").map(Number);
  const found = cells[cellNumber(i, k)];
  return `${capital(span(i, k))}, ${some(found.length, "finding")}${found.length ? ":" : ""} ${found.map(names.long).join(", ")}`;
}

export function showView(view, data, label, marked) {
  view.picture = undefined;
  if (!data.n) return view.frame.replaceChildren(make("p", { class: "quiet" }, "No events, so no stretches."));
  const picture = newPicture(data, label);
  view.frame.replaceChildren(picture.svg);
  mark(picture, marked);
  view.picture = picture;
  view.zoom.near = data.named ? 1 : 2;
  view.zoom.take(...picture.places.whole, data.named ? "width" : "whole");
}

export function markView(view, marked) {
  if (!view.picture) return;
  mark(view.picture, marked);
  refill(view);
}

// The whole picture with all that stands in it, for keeping.
export function wholeOf(view) {
  if (!view.picture) return undefined;
  fill(view.picture, -1, -1, Infinity, Infinity);
  const copy = view.picture.svg.cloneNode(true);
  refill(view);
  return copy;
}
