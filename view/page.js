// Draws the command and the trace, and goes from step to step.

function showCommand(step, n) {
  // (a comment speaks of the commands up to the next one)
  let k = n;
  while (k > 0 && !data.steps[k - 1].t && !data.steps[k - 1].l) k--;
  at("comment").textContent = n ? captionOf(n, k) : beforeText();
  at("comment").classList.toggle("soft", n > 0 && k !== n);
  at("command").textContent = step ? step.c : "";
  const reply = !step || isHidden(n) ? [] : step.r;
  const kind = /^(runs|areas|frame)/.test(reply[0] || "") ? "fact" : "note";
  const lines = reply.map((line, i) => make("div", i ? kind : "", i ? ` ${line}` : line));
  if (isHidden(n)) lines.push(revealButton());
  else if (step?.more) lines.push(make("div", "fact", `and ${step.more} more lines`));
  if (step?.i) lines.push(make("div", "wrong", "the reply of the transcript that was judged isn't legal"));
  at("reply").replaceChildren(...lines);
  at("said").textContent = n === last || n === 0 ? data.said : "";
}

// what stands above step n, where k is the last one with a comment: one that names something
// speaks of its own command alone
function captionOf(n, k) {
  const step = k ? data.steps[k - 1] : {};
  if (step.l && k < n) return "";
  return [step.t, step.l].filter(Boolean).join("\n");
}

const beforeText = () =>
  (data.first > 1 ? `After command ${data.first - 1}.` : "Before the first command.");

// the steps that are listed: all, or those of some processes and with some text
let listed = null;
let wanted = "";
const listLength = () => (listed ? listed.length : last);
const listAt = i => (listed ? listed[i] : i + 1);
const placeIn = n => (listed ? lowerBound(listed, n) : n - 1);
let lineHeight = 20;

function lineOf(i) {
  const n = listAt(i);
  const step = data.steps[n - 1];
  const line = make("li");
  line.style.top = `${i * lineHeight}px`;
  line.style.height = `${lineHeight}px`;
  line.append(make("span", "number", step.n), make("span", "", step.c));
  const reply = isHidden(n) ? "?" : step.r[0];
  line.append(make("span", "soft", reply));
  line.title = `${step.c}  ${reply}`;
  if (step.i) line.classList.add("wrong");
  if (n === here) line.setAttribute("aria-current", "step");
  line.onclick = () => go(n);
  return line;
}

// (only the lines that can be seen are made)
function showLines({top, height}) {
  const first = Math.max(0, Math.floor(top / lineHeight) - 5);
  const end = Math.min(listLength(), first + Math.ceil(height / lineHeight) + 10);
  const lines = Array.from({length: Math.max(0, end - first)}, (_, k) => lineOf(first + k));
  at("lines").style.height = `${listLength() * lineHeight}px`;
  at("lines").replaceChildren(...lines);
}

const readLines = () => ({top: at("trace").scrollTop, height: at("trace").clientHeight});

function scrollLines({top, height}) {
  const line = placeIn(here) * lineHeight;
  const isSeen = top <= line && line + lineHeight <= top + height;
  const wanted = isSeen ? top : Math.max(0, line - height / 2);
  showLines({top: wanted, height});
  if (!isSeen) at("trace").scrollTop = wanted;
}

let here = -1;
let timer = null;

function redraw() {
  drawn.clear();
  frameCells.clear();
  drawAll();
}

// What a cell, card, circle or heading stands for, as a selector. (One that has the focus may be
// drawn anew: then the new one gets it.)
function selectorOf(it) {
  const place = /^\d+ [\da-f]+ /.exec(it?.dataset?.at || "");
  if (place) return `[data-at^="${place[0]}"]`;
  const name = ["frame", "anon", "process"].find(name => it?.dataset?.[name] !== undefined);
  return name && `#${it.closest("[id]").id} [data-${name}="${it.dataset[name]}"]`;
}

function keepingFocus(draw) {
  const [had, selector] = [document.activeElement, selectorOf(document.activeElement)];
  draw();
  if (!selector || document.activeElement === had) return;
  document.querySelector(selector)?.focus({preventScroll: true});
}

const drawAll = () => keepingFocus(drawParts);

function drawParts() {
  const step = here ? data.steps[here - 1] : null;
  const seen = isHidden(here) ? {...step, r: ["?"]} : step;
  at("slider").value = here;
  at("place").textContent = `${here + data.first - 1} of ${data.total}`;
  showCommand(step, here);
  showSpaces(seen);
  showStat();
  showFrames();
  showSwap();
  if (makeSeen(readScroll())) makeSeen(readScroll());
  const [lines, anons, top] = [readLines(), readAnons(), readScroll()];
  scrollLines(lines);
  showAnons(anons);
  if (top !== at("scroll").scrollTop) at("scroll").scrollTop = top;
  showFound();
}

function show(place) {
  const n = Math.max(0, Math.min(last, place));
  if (n === here) return;
  const isNext = n === here + 1;
  here = n;
  goThere();
  drawAll();
  if (isNext) showMoves();
  // (a browser takes its time for this)
  clearTimeout(naming);
  naming = setTimeout(nameStep, 300);
  // (a page that this one lies in may follow: view/lesson.html)
  window.onstep?.(n);
}

// The steps whose replies were asked for, where the others are hidden; null where none is. At a
// step whose reply is hidden the state before it is drawn.
let revealed = null;
const isHidden = n => revealed !== null && n > 0 && !revealed.has(n);
const goThere = () => (isHidden(here) ? moveBefore(here) : moveTo(here));

function hideReplies(on) {
  revealed = on ? new Set() : null;
  at("hide").checked = on;
  goThere();
  redraw();
}

function reveal() {
  revealed.add(here);
  goThere();
  redraw();
}

function revealButton() {
  const button = make("button", "", "what is the reply? (Enter shows it)");
  button.id = "reveal";
  button.onclick = reveal;
  return button;
}

let naming = null;

function nameStep() {
  try {
    const hide = revealed ? "&hide" : "";
    history.replaceState(null, "", `#step=${here + data.first - 1}${hide}`);
  } catch {
    // a page without an address
  }
}

function play(on) {
  clearInterval(timer);
  timer = on ? setInterval(() => (here < last ? forth() : play(false)), 1200) : null;
  at("play").textContent = on ? "stop" : "play";
}

function go(n) {
  play(false);
  show(n);
}

// the step that is listed before or behind this one; before the first stands the beginning
function stepBeside(isBefore) {
  if (!listed) return here + (isBefore ? -1 : 1);
  return isBefore ? listed[lowerBound(listed, here) - 1] ?? 0 : listed[lowerBound(listed, here + 1)] ?? here;
}

const forth = () => show(stepBeside(false));
const back = () => show(stepBeside(true));

function light(what) {
  Object.assign(lit, {frame: -1, anon: null, page: -1}, what);
  redraw();
}

function showOnly(text) {
  const found = (text.match(/\d+/g) || []).map(Number);
  only = found.length ? new Set(found) : null;
  listSteps();
  redraw();
}

function listSteps() {
  const isNamed = step => !only || namedIn(step).some(it => only.has(it));
  const has = text => text.toLowerCase().includes(wanted);
  const isFound = step => has(step.c) || step.r.some(has);
  const isListed = step => isNamed(step) && (!wanted || isFound(step));
  listed = only || wanted ? data.steps.flatMap((step, i) => (isListed(step) ? [i + 1] : [])) : null;
}

// lights a frame or page (an address has a digit, or 0x in front), or lists the commands with a text
function find(text) {
  const frame = /^f(?:rame)? *(\d+)$/.exec(text.trim());
  const address = /^(?:0x([\da-f]{1,16})|(?=.*\d)([\da-f]{1,16}))$/i.exec(text.trim());
  wanted = frame || address ? "" : text.trim().toLowerCase();
  listSteps();
  if (frame) light({frame: Number(frame[1])});
  else if (address) light({page: Math.floor(parseInt(address[1] || address[2], 16) / 4096)});
  else light({});
}

// what is said of what is found: who has it, or which of the commands this is
function showFound() {
  const pages = () => many(state.owners.get(lit.frame)?.size || 0, "page");
  const where = () => [...state.processes].filter(([, it]) => rowAt(it, lit.page))
    .map(([number]) => number).sort((a, b) => a - b).slice(0, 6);
  const isHere = () => listed[placeIn(here)] === here;
  let text = "";
  if (wanted) text = `${isHere() ? `${placeIn(here) + 1} of ` : ""}${many(listed.length, "command")}`;
  else if (lit.frame >= 0) text = pages();
  else if (lit.page >= 0) text = where().length ? `in ${where().join(", ")}` : "not mapped now";
  at("found").textContent = text;
}

const keys = {
  ArrowLeft: () => back(),
  ArrowRight: () => forth(),
  ArrowUp: () => back(),
  ArrowDown: () => forth(),
  PageUp: () => show(here - 10),
  PageDown: () => show(here + 10),
  Home: () => show(0),
  End: () => show(last),
};

const CLICKED = "[data-frame], [data-at], [data-anon], h3[data-process]";

document.addEventListener("keydown", event => {
  const {tagName, type} = event.target;
  const isText = tagName === "INPUT" && type !== "range" && type !== "checkbox";
  const isButton = /^( |Enter)$/.test(event.key) && (tagName === "BUTTON" || type === "checkbox");
  if (event.altKey || event.ctrlKey || event.metaKey || isButton || isText) return;
  if (event.key === "Enter" && event.target.matches?.(CLICKED)) {
    event.target.dispatchEvent(new MouseEvent("click", {bubbles: true}));
  } else if (event.key === "Enter" && isHidden(here)) {
    reveal();
  } else if (event.key === " ") {
    play(!timer);
  } else if (keys[event.key]) {
    play(false);
    keys[event.key]();
  } else {
    return;
  }
  event.preventDefault();
});

document.addEventListener("click", event => {
  const frame = event.target.closest("[data-frame]")?.dataset.frame ??
    (/[fF](\d+)$/.exec(event.target.dataset?.at || "") || [])[1];
  if (frame !== undefined) light({frame: lit.frame === Number(frame) ? -1 : Number(frame)});
});

// a cell tells its entry under the pointer, and where it has the focus
function tell(event) {
  const it = event.target;
  if (!it.dataset?.at) return;
  const [process, page, code] = it.dataset.at.split(" ");
  it.title ||= `process ${process}, page ${hex(parseInt(page, 16))}: ${entryText(code)}`;
  if (event.type === "focusin") at("found").textContent = it.title;
}

document.addEventListener("mouseover", tell);
document.addEventListener("focusin", tell);

function hashed() {
  const words = new URLSearchParams(location.hash.slice(1).replace(/^(\d+)$/, "step=$1"));
  const n = parseInt(words.get("step"), 10);
  if (words.has("processes")) {
    at("only").value = words.get("processes");
    showOnly(at("only").value);
  }
  if (words.has("hide") !== Boolean(revealed)) hideReplies(words.has("hide"));
  const begin = data.steps.findIndex(step => step.i) + 1 || Math.min(1, last);
  show(Number.isNaN(n) ? begin : n - data.first + 1);
  if (words.has("find")) {
    at("find").value = words.get("find");
    find(at("find").value);
  }
}

function showTitle() {
  at("title").textContent = `${data.title}, ${many(data.frames, "frame")}`;
  at("most").textContent = `${data.most.toLocaleString("en")} in use at most`;
  at("slider").max = last;
}

showTitle();
at("slider").addEventListener("input", () => go(Number(at("slider").value)));
at("first").onclick = () => go(0);
at("back").onclick = () => { play(false); back(); };
at("next").onclick = () => { play(false); forth(); };
at("last").onclick = () => go(last);
at("play").onclick = () => play(!timer);
at("hide").onchange = () => hideReplies(at("hide").checked);
at("only").addEventListener("input", () => showOnly(at("only").value));
at("find").addEventListener("input", () => find(at("find").value));
at("find").addEventListener("keydown", event => {
  if (event.key === "Enter") go(stepBeside(event.shiftKey));
});
at("trace").addEventListener("scroll", () => showLines(readLines()));
at("scroll").addEventListener("scroll", () => {
  if (makeSeen(at("scroll").scrollTop)) showAnons(readAnons());
});
window.addEventListener("hashchange", hashed);
window.addEventListener("resize", () => { measure(); redraw(); });

function measure() {
  lineHeight = Math.round(1.6 * parseFloat(getComputedStyle(document.documentElement).fontSize));
}

measure();
here = 0;
change = newChange();
hashed();
if (here === 0) drawAll();
