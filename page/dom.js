// Helpers for what is shown. Text goes in as text alone, never as markup: names and file contents are other people's.
export const LIMIT = 4294967295;
export const byId = id => document.getElementById(id);

// An attribute that begins with "on" is a listener; one that is false or undefined is left out.
function fitted(element, attributes, children) {
  for (const [key, value] of Object.entries(attributes)) {
    if (key.startsWith("on")) element.addEventListener(key.slice(2), value);
    else if (value !== false && value !== undefined) element.setAttribute(key, value === true ? "" : value);
  }
  element.append(...children);
  return element;
}
export const make = (tag, attributes = {}, ...children) => fitted(document.createElement(tag), attributes, children);
export const draw = (tag, attributes = {}, ...children) =>
  fitted(document.createElementNS("http://www.w3.org/2000/svg", tag), attributes, children);
export const press = (label, onclick, more = {}) => make("button", { type: "button", onclick, ...more }, label);

// 4294967295 as 4,294,967,295: the same on every machine, whatever its language is.
export const told = number => String(number).replace(/\B(?=(\d{3})+$)/g, ",");
export const toldCount = count => told(count) + (count === LIMIT ? " or more" : "");
export const some = (count, one, many = `${one}s`) => `${told(count)} ${Number(count) === 1 ? one : many}`;
export const span = (i, k) => k - i === 1 ? `event ${k}` : `events ${i + 1} to ${k}`;
export const capital = text => text.slice(0, 1).toUpperCase() + text.slice(1);

// What fits in a picture; the whole stands in the title beside it.
export const cut = (text, most) => text.length > most ? `${text.slice(0, most - 1)}…` : text;

// Whole numbers from a text, parted by spaces or commas, or the first part that is none.
export function numbersOf(text, most) {
  const parts = text.split(/[\s,;]+/).filter(part => part);
  const wrong = parts.find(part => !/^\d{1,10}$/.test(part) || Number(part) > most);
  return wrong === undefined ? { numbers: parts.map(Number) } : { wrong: cut(wrong, 20) };
}
