// Names of symbols and events, from a small text with a line for each: `0 Shift`, `event 7 press`. A line that begins with # is left out.
export const NAMES_MOST = 20000;

const NAME_MOST = 60;

// short is for a picture, where a number stands by itself; long is for a sentence.
export function namesOf(text) {
  const symbols = new Map(), events = new Map(), wrong = [];
  text.split(/\r?\n/).forEach((line, at) => {
    const words = line.trim();
    if (!words || words.startsWith("#")) return;
    const [, event, number, name] = /^(event\s+)?(\d{1,5})\s+(\S.*)$/.exec(words) ?? [];
    if (name === undefined || Number(number) > (event ? 65535 : 63)) wrong.push(at + 1);
    else (event ? events : symbols).set(Number(number), name.slice(0, NAME_MOST));
  });
  return {
    wrong,
    short: symbol => symbols.get(symbol) ?? String(symbol),
    long: symbol => symbols.get(symbol) ?? `symbol ${symbol}`,
    event: event => events.get(event) ?? String(event),
    longEvent: event => events.has(event) ? `${events.get(event)} (event ${event})` : `event ${event}`,
  };
}

export function toldWrong(wrong) {
  if (!wrong.length) return "";
  const lines = wrong.length === 1 ? `Line ${wrong[0]} is` : `Lines ${wrong.slice(0, 8).join(", ")}${wrong.length > 8 ? " and more" : ""} are`;
  return `${lines} not understood: a line is a symbol's number and its name, or the word event, an event's number and its name.`;
}
