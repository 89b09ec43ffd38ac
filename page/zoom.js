// A picture in a frame that scrolls: fit the whole of it, or show it at the size at which it is read, or steps between.
import { make, press } from "./dom.js";

const LEAST = 0.02, MOST = 4, FIT_MOST = 1.5, SHARE = .68, ENOUGH = .75;

// frame: the element that scrolls, with one svg in it. onchange is told the scale after every change.
export function newZoom(frame, onchange = () => {}) {
  const zoom = { scale: 1, way: "whole", asked: false, near: 1, width: 0, height: 0, room: [0, 0] };
  const resize = scale => {
    zoom.scale = Math.min(MOST, Math.max(LEAST, scale));
    const svg = frame.querySelector("svg");
    svg?.setAttribute("width", Math.round(zoom.width * zoom.scale));
    svg?.setAttribute("height", Math.round(zoom.height * zoom.scale));
  };
  const measure = () => { zoom.room = [frame.clientWidth - 2, innerHeight * SHARE - 4]; };
  // way: the whole of it, or its width; what is below then comes by scrolling
  zoom.fit = (way = zoom.way) => {
    if (zoom.room[0] <= 0) measure();
    zoom.way = way;
    resize(Math.min(FIT_MOST, zoom.room[0] / zoom.width, way === "whole" ? zoom.room[1] / zoom.height : FIT_MOST));
    onchange(zoom.scale);
  };
  zoom.to = scale => {
    zoom.way = "";
    // the middle of what is seen stays in the middle
    const { scrollLeft, scrollTop, clientWidth, clientHeight } = frame, before = zoom.scale;
    resize(scale);
    const kept = (start, size) => (start + size / 2) / before * zoom.scale - size / 2;
    [frame.scrollLeft, frame.scrollTop] = [kept(scrollLeft, clientWidth), kept(scrollTop, clientHeight)];
    onchange(zoom.scale);
  };
  // a new picture keeps the way that was asked for, where one was
  zoom.take = (width, height, way = "whole") => {
    [zoom.width, zoom.height] = [width, height];
    if (zoom.room[0] <= 0) measure();
    // where the whole is large enough to be read it is shown, whatever way was wished
    if (!zoom.asked) zoom.way = zoom.room[1] / height >= ENOUGH ? "whole" : way;
    if (zoom.way) return zoom.fit();
    resize(zoom.scale);
    onchange(zoom.scale);
  };
  // puts a point of the picture into what is seen
  zoom.see = (x, y, margin = 60) => {
    const [left, top] = [x * zoom.scale, y * zoom.scale];
    if (left < frame.scrollLeft + margin || left > frame.scrollLeft + frame.clientWidth - margin) frame.scrollLeft = left - frame.clientWidth / 2;
    if (top < frame.scrollTop + margin || top > frame.scrollTop + frame.clientHeight - margin) frame.scrollTop = top - frame.clientHeight / 2;
  };
  watch(frame, zoom, measure);
  return zoom;
}

// The room is measured when it changes, and not for every picture: asking for it makes the browser lay out the page in between.
function watch(frame, zoom, measure) {
  const again = () => requestAnimationFrame(() => {
    const before = zoom.room;
    measure();
    const other = Math.abs(before[0] - zoom.room[0]) > 1 || before[1] !== zoom.room[1];
    if (other && zoom.way && zoom.width && zoom.room[0] > 0) zoom.fit();
  });
  new ResizeObserver(again).observe(frame);
  addEventListener("resize", again);
}

export function zoomButtons(zoom, what) {
  const ask = act => () => {
    zoom.asked = true;
    act();
  };
  return make("span", { class: "group", role: "group", "aria-label": `Size of the ${what}` },
    press("Fit", ask(() => zoom.fit("whole")), { title: `The whole ${what}`, "data-zoom": "fit" }),
    press("Width", ask(() => zoom.fit("width")), { title: `The whole width of the ${what}`, "data-zoom": "width" }),
    press("Read", ask(() => zoom.to(zoom.near)), { title: "The size at which all is read", "data-zoom": "read" }),
    press("−", ask(() => zoom.to(zoom.scale / 1.4)), { "aria-label": "Smaller", "data-zoom": "less" }),
    press("+", ask(() => zoom.to(zoom.scale * 1.4)), { "aria-label": "Larger", "data-zoom": "more" }));
}
