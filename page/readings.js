// The readings: any of up to four billion by its number, one or two side by side, and the number of a script that is pasted.
import { LIMIT, byId, make, numbersOf, press, some, told, toldCount } from "./dom.js";
import { refusalOf } from "./refusals.js";
import { differing, drawTree, litBy, newTreePicture, treeList, treeOf } from "./tree.js";
import { newZoom, zoomButtons } from "./zoom.js";

// A script has at most 382 words; of a longer text so many are enough to see that it is none.
const NEAR = 8, SCRIPT_MOST = 400, READABLE = .3;
let turnTo, askedReader, current;
const kept = new Map(), lists = new Map();
// where each of two readings stands
const sides = [
  { frame: "tree", buttons: "treeZoom", words: "words", numbers: "script", title: "readingTitle" },
  { frame: "otherTree", buttons: "otherZoom", words: "otherWords", numbers: "otherScript", title: "otherTitle" },
];

// turn(k, other) is called with numbers that exist; other is undefined where one reading is shown.
export function setUpReadings(reader, turn) {
  [askedReader, turnTo] = [reader, turn];
  // letters that are too small to be read are left out, which makes it faster too
  for (const side of sides) {
    side.zoom = newZoom(byId(side.frame), scale => byId(side.frame).classList.toggle("far", scale < READABLE));
    byId(side.buttons).append(zoomButtons(side.zoom, "tree"));
    byId(side.words).parentElement.addEventListener("toggle", () => fillWords(side.words));
  }
  const steps = { first: () => 0, previous: k => k - 1, next: k => k + 1, last: () => LIMIT };
  for (const [id, step] of Object.entries(steps)) byId(id).addEventListener("click", () => go(step(current.k), current.other));
  byId("k").addEventListener("change", () => go(Number(byId("k").value), current.other));
  byId("two").addEventListener("change", () => go(current.k, byId("two").checked ? current.k + 1 : undefined));
  byId("other").addEventListener("change", () => go(current.k, Number(byId("other").value)));
  byId("find").addEventListener("click", findScript);
}

// A script in words is made when it is looked at: it would take as long as the tree.
function fillWords(id) {
  const list = byId(id).parentElement.open && lists.get(id);
  byId(id).replaceChildren(...list ? [list()] : []);
}

const within = (k, total) => Math.min(Math.max(0, Math.trunc(k) || 0), total - 1);
const go = (k, other) => turnTo(within(k, current.shown.total), other === undefined ? undefined : within(other, current.shown.total));

// The script of a reading that exists. Nearly all of the time goes into the count table, so its neighbours come with it, and a step from one to
// the next asks nothing.
export function scriptOf(shown, k) {
  if (kept.of !== shown) kept.clear();
  kept.of = shown;
  if (!kept.has(k)) {
    const first = Math.max(0, k - NEAR), { scripts } = askedReader.page(shown.grammar, shown.events, first, 2 * NEAR);
    if (kept.size > 16 * NEAR) kept.clear();
    scripts.forEach((script, x) => kept.set(first + x, script));
  }
  return kept.get(k);
}

// Shows reading k, and beside it the other one where there is one. Gives what it lights in the chart.
export function showReadings(shown, k, other) {
  current = { shown, k, other };
  const { total, events, rules } = shown, end = total - 1, some0 = total > 0;
  byId("pager").hidden = byId("readingBoth").hidden = !some0;
  byId("noReading").textContent = some0 ? "" : "This record has no reading.";
  byId("found").replaceChildren();
  if (!some0) return undefined;
  byId("of").textContent = total === 1 ? "the only one, number 0" : `of ${toldCount(total)}, numbered from 0 to ${told(end)}`;
  [byId("k").value, byId("k").max] = [k, end];
  [byId("first").disabled, byId("previous").disabled, byId("next").disabled, byId("last").disabled] = [k === 0, k === 0, k === end, k === end];
  byId("two").disabled = total === 1;
  byId("two").checked = other !== undefined;
  byId("otherPart").hidden = byId("otherLabel").hidden = other === undefined;
  if (other !== undefined) byId("other").value = other;
  const trees = [k, other].map(number => number === undefined ? undefined : treeOf(scriptOf(shown, number), rules, events.length));
  const different = other === undefined ? [new Set(), new Set()] : [differing(trees[0], trees[1]), differing(trees[1], trees[0])];
  showOne(sides[0], shown, k, trees[0], different[0], other);
  if (other !== undefined) showOne(sides[1], shown, other, trees[1], different[1], k);
  byId("differ").textContent = other === undefined ? "" : different[0].size === 0 ? "The same reading twice."
    : `They differ in ${some(different[0].size, "node")} of ${told(2 * events.length - 1)}, marked in both.`;
  return litBy(...trees);
}

function showTree(side, shown, tree, different, label) {
  if (side.shown !== shown) {
    side.picture = newTreePicture(shown);
    byId(side.frame).replaceChildren(side.picture.svg);
  }
  side.shown = shown;
  side.zoom.take(...drawTree(side.picture, tree, shown.names, different, label));
}

function showOne(side, shown, k, tree, different, beside) {
  const script = scriptOf(shown, k), { frame, words, numbers, title } = side;
  byId(title).textContent = `Reading ${told(k)}`;
  if (!tree) {
    byId(frame).replaceChildren(make("p", { class: "quiet" }, "The quiet reading: no events, and an empty script."));
    side.shown = undefined;
    lists.delete(words);
    return [words, numbers].forEach(id => byId(id).replaceChildren());
  }
  showTree(side, shown, tree, different, `Tree of reading ${told(k)}; its script in words says the same.`);
  lists.set(words, () => treeList(tree, shown, different));
  fillWords(words);
  if (beside === undefined) return byId(numbers).replaceChildren(script.join(" "));
  const other = scriptOf(shown, beside);
  const marked = Array.from(script, (word, x) => word === other[x] ? [`${word} `] : [make("mark", {}, String(word)), " "]);
  byId(numbers).replaceChildren(...marked.flat());
}

// A pasted script: its number, or that it is no reading of this record.
function findScript() {
  const { shown } = current, { numbers, wrong } = numbersOf(byId("pasted").value, 65535), box = byId("found");
  if (wrong !== undefined) return box.replaceChildren(`“${wrong}” is not a word of a script: those are whole numbers from 0 to 65,535.`);
  const answer = askedReader.number(shown.grammar, shown.events, Uint16Array.from(numbers.slice(0, SCRIPT_MOST)));
  if (answer.refusal === 12) return box.replaceChildren("No reading of this record.");
  if (answer.refusal === 13) return box.replaceChildren("A reading of this record; its number is 4,294,967,295 or more, and cannot be asked for.");
  if (answer.refusal) return box.replaceChildren(refusalOf({ ...shown, ...answer }).title);
  box.replaceChildren(`Reading ${told(answer.reading)} of this record. `, press("Show it", () => turnTo(answer.reading, current.other)));
}
