// What .ci/view asks of a page that a browser shows.
"use strict";

// a colour as red, green, blue and alpha, each asked once
const canvas = document.createElement("canvas").getContext("2d", {willReadFrequently: true});
const known = new Map();

function channels(text) {
  if (!known.has(text)) known.set(text, painted(text));
  return known.get(text);
}

function painted(text) {
  canvas.clearRect(0, 0, 1, 1);
  canvas.fillStyle = text;
  canvas.fillRect(0, 0, 1, 1);
  const [red, green, blue, alpha] = canvas.getImageData(0, 0, 1, 1).data;
  return [red, green, blue, alpha / 255];
}

const over = ([r, g, b, a], below) =>
  [...[r, g, b].map((it, i) => it * a + below[i] * (1 - a)), 1];

// luminance and contrast, as the guidelines for accessible web content define them
function luminance(colour) {
  const [red, green, blue] = colour.map(it => it / 255)
    .map(it => (it <= 0.04045 ? it / 12.92 : ((it + 0.055) / 1.055) ** 2.4));
  return 0.2126 * red + 0.7152 * green + 0.0722 * blue;
}

function contrast(one, other) {
  const [low, high] = [luminance(one), luminance(other)].sort((a, b) => a - b);
  return (high + 0.05) / (low + 0.05);
}

// what a page lies on that has no colour of its own, which `scene` asks once
let paper = null;

function paperNow() {
  const it = document.createElement("div");
  it.style.backgroundColor = "Canvas";
  document.documentElement.append(it);
  const found = channels(getComputedStyle(it).backgroundColor);
  it.remove();
  return found;
}

// what may lie behind an element's text: a colour, or each colour of a pattern
function behind(it) {
  if (!it) return [paper];
  const style = getComputedStyle(it);
  const below = behind(it.parentElement);
  const plain = below.map(of => over(channels(style.backgroundColor), of));
  const pattern = style.backgroundImage.match(/(rgba?|color|hsla?)\([^()]*\)/g) || [];
  return pattern.length ? pattern.flatMap(of => plain.map(low => over(channels(of), low))) : plain;
}

const opacity = it => (it ? Number(getComputedStyle(it).opacity) * opacity(it.parentElement) : 1);

// (what lies behind is taken as it is without opacity, so one that has it counts as less than it is)
function inkOf(it, below) {
  const style = getComputedStyle(it);
  const [red, green, blue, alpha] = channels(it.closest("svg") ? style.fill : style.color);
  return over([red, green, blue, alpha * opacity(it)], below);
}

// what lies behind the text of a drawing: the shape around it, if it has one
function behindDrawn(it) {
  const inner = it.getBoundingClientRect();
  const below = behind(it.closest("svg").parentElement);
  for (let shape = it.previousElementSibling; shape; shape = shape.previousElementSibling) {
    const outer = shape.getBoundingClientRect();
    const isInside = outer.left <= inner.left && inner.right <= outer.right &&
      outer.top <= inner.top && inner.bottom <= outer.bottom;
    const fill = getComputedStyle(shape).fill;
    if (shape.tagName === "rect" && isInside) return below.map(low => over(channels(fill), low));
  }
  return below;
}

const isShown = it => it.getClientRects().length > 0 && getComputedStyle(it).fontSize !== "0px";
const hasText = it => [...it.childNodes].some(of => of.nodeType === 3 && of.data.trim());

// the texts that are shown, each with the least contrast to what lies behind it
function contrasts() {
  const found = [...document.querySelectorAll("body *")].filter(it => hasText(it) && isShown(it));
  return found.map(it => {
    const below = it.closest("svg") ? behindDrawn(it) : behind(it);
    const least = Math.min(...below.map(of => contrast(inkOf(it, of), of)));
    return [`${it.tagName} ${it.className} ${it.textContent.trim().slice(0, 30)}`, least];
  });
}

function scene() {
  paper = paperNow();
  return {texts: contrasts(), paper: luminance(behind(document.body)[0])};
}

// what has the focus: which thing it is, whether it is in sight, and whether an outline shows it
function focused() {
  const it = document.activeElement;
  if (!it || it === document.body) return null;
  const {at: cell, frame, anon, process} = it.dataset;
  const name = cell ? `cell ${cell}` : frame ? `frame ${frame} in ${it.closest("[id]").id}` :
    anon ? `anon_vma ${anon}` : process ? `process ${process}` : it.id;
  const {outlineStyle, outlineWidth} = getComputedStyle(it);
  const {left, top, right, bottom} = it.getBoundingClientRect();
  const middle = document.elementFromPoint((left + right) / 2, (top + bottom) / 2);
  return {
    name, isOutlined: outlineStyle !== "none" && parseFloat(outlineWidth) >= 2,
    inSight: it === middle || it.contains(middle),
  };
}

// what a click does something to, and so the keys
const CLICKABLE = "[data-frame], [data-at], [data-anon], h3[data-process]";
const reachable = () => [...document.querySelectorAll(CLICKABLE)].filter(isShown).length;

// how a lesson lies in the window where its text is scrolled to a place: of the text and the view
// what is wider than it has room for, and how much of the view is in sight
function lies(top) {
  scrollTo(0, top);
  const view = document.getElementById("view");
  const {left, right, top: from, bottom: to} = view.getBoundingClientRect();
  const wide = of => of.scrollWidth - of.clientWidth;
  return {
    isWide: [wide(document.documentElement), wide(view.contentDocument.documentElement)],
    isInside: left >= 0 && right <= innerWidth && from >= 0 && to <= innerHeight,
    part: (to - from) / innerHeight,
  };
}

// the middle of a lesson's line of a step, which is scrolled into sight above the view
function placeOf(step) {
  const it = document.querySelector(`[data-step="${step}"]`);
  it.scrollIntoView({block: "start"});
  const {left, right, top, bottom} = it.getBoundingClientRect();
  return [(left + right) / 2, (top + bottom) / 2];
}

// the line that is marked, and whether it is in sight above the view
function marked() {
  const it = document.querySelector("[data-step][aria-current]");
  const {top, bottom} = it.getBoundingClientRect();
  const end = document.getElementById("view").getBoundingClientRect().top;
  return {step: Number(it.dataset.step), inSight: top >= 0 && bottom <= end};
}
