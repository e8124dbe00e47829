// Draws address spaces: processes, their areas with the entries of the pages, and anon_vmas.

const BIG_CELLS = 32, MOST_CELLS = 512, MOST_CHANGED = 4096, MOST_OWNERS = 8, MOST_LINKS = 150;
const MOST_CARDS = 24, MOST_ROWS = 26;
const lit = {frame: -1, anon: null, page: -1};
const toggled = new Map();
let only = null;

function make(tag, kind, text) {
  const it = document.createElement(tag);
  if (kind) it.className = kind;
  if (text !== undefined) it.textContent = text;
  return it;
}

const many = (n, what) => `${n.toLocaleString("en")} ${what}${n === 1 ? "" : "s"}`;
const colour = frame => `hsl(${(Number(frame) * 137.5) % 360} var(--frame))`;

function entryText(code) {
  const frame = frameOf(code);
  if (frame >= 0) {
    const slot = state.slots.get(frame);
    const more = (slot ? ` cached ${slot}` : "") + (state.merged.has(frame) ? " ksm" : "");
    return `frame ${frame} ${code[0] === "F" ? "seen" : "old"}${more}`;
  }
  if (code[0] === "s") {
    const cached = state.cached.get(code.slice(1));
    return `slot ${code.slice(1)}${cached === undefined ? "" : ` cached ${cached}`}`;
  }
  return {"-": "empty", z: "zero"}[code] || "not known";
}

function cellOf(number, page, code, kind, isNew) {
  const cell = make("span", kind);
  const frame = frameOf(code);
  const looks = {"-": ["none", "\u00b7"], z: ["zero", "zero"], "?": ["dim", "?"]};
  const [look, text] = looks[code] ||
    (frame >= 0 ? [code[0] === "f" ? "old" : "seen", frame] : ["slot", code.slice(1)]);
  cell.classList.add(look);
  if (kind === "cell") cell.textContent = text;
  if (frame >= 0) cell.style.background = colour(frame);
  if (state.merged.has(frame)) cell.classList.add("merged");
  if (isNew) cell.classList.add("new");
  if (frame >= 0 && frame === lit.frame || page === lit.page) cell.classList.add("lit");
  if (change.used.has(keyOf(number, page))) cell.classList.add("used");
  cell.tabIndex = 0;
  cell.dataset.at = `${number} ${page.toString(16)} ${code}`;
  return cell;
}

// the pages of a long area that are drawn: those that changed, were used or are lit, and the first
// others
function chosenPages(number, process, row, isWanted) {
  const sorted = sortedPages(process);
  const inside = sorted.subarray(lowerBound(sorted, row.start), lowerBound(sorted, row.end));
  const chosen = new Set();
  for (const key of [...change.used, ...change.entries.keys()]) {
    const page = pageOf(key);
    const isHere = processOf(key) === number && row.start <= page && page < row.end;
    if (isHere && chosen.size < MOST_CHANGED) chosen.add(page);
  }
  if (row.start <= lit.page && lit.page < row.end) chosen.add(lit.page);
  if (lit.frame >= 0) for (const page of inside.filter(isWanted)) chosen.add(page);
  for (const page of inside.subarray(0, MOST_CELLS)) if (chosen.size < MOST_CELLS) chosen.add(page);
  return {pages: [...chosen].sort((a, b) => a - b), inside};
}

// the cells of an area; `codeAt` says what a page's entry is or, of an area that is gone, was
function cellsOf(number, process, row, codeAt, isNew) {
  const cells = make("span", row.isLocked ? "cells locked" : "cells");
  const count = row.end - row.start;
  if (count <= MOST_CELLS) {
    const kind = count <= BIG_CELLS ? "cell" : "dot";
    for (let page = row.start; page < row.end; page++) {
      cells.append(cellOf(number, page, codeAt(page), kind, isNew(page)));
    }
    return cells;
  }
  const isLit = page => frameOf(codeAt(page)) === lit.frame;
  const {pages, inside} = chosenPages(number, process, row, isLit);
  const without = process.dim ? "not known" : "without entry";
  let next = row.start, passed = 0;
  const gap = to => {
    const here = lowerBound(inside, to) - passed;
    const text = here ? `${many(to - next, "page")}, ${here} of them with entry` :
      pages.length > 4 ? `\u00b7${to - next}\u00b7` : `${many(to - next, "page")} ${without}`;
    if (next < to) cells.append(make("span", "hole", text));
    passed = lowerBound(inside, to + 1);
  };
  for (const page of pages) {
    gap(page);
    cells.append(cellOf(number, page, codeAt(page), "dot", isNew(page)));
    next = page + 1;
  }
  gap(row.end);
  return cells;
}

// an area with its cells; `kind` is new, gone or nothing
function rowElement(number, process, row, kind, isMarked) {
  const count = row.end - row.start;
  const box = make("div", `row ${kind}${count > BIG_CELLS ? " long" : ""}`);
  box.append(make("span", "text", `${kind === "gone" ? "was " : ""}${row.text}`));
  const name = namesIn(number, row);
  if (name) box.append(" ", make("span", "name soft", name));
  const isGone = kind === "gone";
  const codeAt = page =>
    (isGone && change.entries.get(keyOf(number, page))) || codeIn(process, page);
  const isBorn = change.born.has(number);
  const isNew = page => !isGone && change.entries.has(keyOf(number, page)) ||
    isBorn && codeAt(page) !== "-";
  const cells = () => cellsOf(number, process, row, codeAt, isNew);
  box.append(isLazy && !isMarked && count > BIG_CELLS ? later(process, row, cells) : cells());
  box.link = {number, row, kind};
  return box;
}

// Cells of a long area that the command doesn't touch are made when they come into sight.
let isLazy = true;

function later(process, row, cells) {
  const box = make("div", "cells later");
  const count = Math.min(row.end - row.start, MOST_CELLS, process.table.size + 480);
  box.style.height = `${Math.ceil(count / 38) * 0.85}rem`;
  box.make = cells;
  return box;
}

// makes the cells that are in sight where the list of areas is scrolled to this place
function makeSeen(top) {
  const box = at("scroll");
  const {top: begin, height} = box.getBoundingClientRect();
  const found = [...box.querySelectorAll(".later")].filter(it => {
    const place = it.getBoundingClientRect();
    const y = place.top - begin + box.scrollTop - top;
    return y < height + 200 && y + place.height > -200;
  });
  for (const it of found) it.replaceWith(it.make());
  return found.length > 0;
}

// Rows that a step doesn't touch stay as they were drawn.
const drawn = new Map();

function drawnRow(number, process, row, dirtyRows, marked) {
  const cache = drawn.get(number);
  const kept = cache.get(row.text);
  const isFresh = change.fresh.get(number)?.includes(row) || change.born.has(number);
  const isMarked = isFresh || marked.has(row);
  const name = namesIn(number, row);
  const isKept = kept && kept.name === name;
  if (isKept && !kept.isMarked && !isMarked && !dirtyRows.has(row)) return kept.box;
  const box = rowElement(number, process, row, isFresh ? "new" : "", marked.has(row));
  cache.set(row.text, {box, isMarked, name});
  return box;
}

function rowsAt(process, pages) {
  const found = new Set();
  for (const page of pages) found.add(rowAt(process, page));
  return found;
}

function spaceRows(number, process, pagesChanged) {
  if (!process.dirty || !drawn.has(number)) {
    drawn.set(number, new Map());
    process.dirty = new Set();
  }
  const dirtyRows = rowsAt(process, process.dirty);
  const marked = rowsAt(process, pagesChanged);
  process.dirty.clear();
  const boxFor = row => drawnRow(number, process, row, dirtyRows, marked);
  const rows = rowsOf(process).map(row => ({row, box: boxFor(row)}));
  const texts = new Set(rows.map(it => it.row.text));
  const cache = drawn.get(number);
  for (const text of [...cache.keys()]) if (!texts.has(text)) cache.delete(text);
  const places = new Set(rows.map(({row}) => `${row.start} ${row.end} ${row.prot}`));
  const gone = (change.gone.get(number) || [])
    .filter(row => !places.has(`${row.start} ${row.end} ${row.prot}`))
    .map(row => ({row, box: rowElement(number, process, row, "gone")}));
  return gone.length ? [...gone, ...rows].sort((a, b) => a.row.start - b.row.start) : rows;
}

function withHoles(rows) {
  const found = [];
  let end = null;
  for (const {row, box} of rows) {
    const isGone = box.link.kind === "gone";
    if (!isGone && end !== null && row.start > end) {
      const text = `${many(row.start - end, "page")} not mapped`;
      if (box.hole?.textContent !== text) box.hole = make("div", "row hole", text);
      found.push(box.hole);
    }
    found.push(box);
    if (!isGone) end = row.end;
  }
  return found;
}

// makes these the children of an element, and leaves alone those that stay
function setChildren(box, children) {
  const wanted = new Set(children);
  for (const it of [...box.children]) if (!wanted.has(it)) it.remove();
  let next = box.firstChild;
  for (const it of children) {
    if (it === next) next = next.nextSibling;
    else box.insertBefore(it, next);
  }
}

function setText(box, text, kind) {
  if (box.textContent !== text) box.textContent = text;
  if (box.className !== kind) box.className = kind;
}

const boxes = new Map();

function boxOf(number) {
  if (!boxes.has(number)) {
    const box = make("div", "process");
    const head = make("h3");
    head.tabIndex = 0;
    head.dataset.process = number;
    head.onclick = () => toggle(number, false);
    box.append(head, make("div"));
    boxes.set(number, box);
  }
  return boxes.get(number);
}

function spaceBox(number, pagesChanged) {
  const died = change.died.get(number);
  const isGone = died && !state.processes.has(number);
  const process = isGone ? died : state.processes.get(number);
  const box = boxOf(number);
  const rows = isGone
    ? rowsOf(process).map(row => ({row, box: rowElement(number, process, row, "gone")}))
    : spaceRows(number, process, pagesChanged);
  const title = state.titles.get(number);
  const said = (title ? `: ${title}` : "") + (rows.length ? "" : `${title ? "," : ":"} no memory`);
  setText(box.firstChild, `${isGone ? "was " : ""}process ${number}${said}`, isGone ? "gone" : "");
  setChildren(box.lastChild, withHoles(rows));
  return box;
}

// the processes that a step names, changes or reports of
function touchedBy(step) {
  const found = new Set([...change.born, ...change.died.keys(), ...change.fresh.keys()]);
  for (const key of change.entries.keys()) found.add(processOf(key));
  for (const number of namedIn(step)) found.add(number);
  return found;
}

const WITHOUT = new Set(
  ["stat", "slot", "reclaim", "age", "complete", "swapon", "swapoff", "merge", "compact"]);

function namedIn(step) {
  const words = step.c.split(" ");
  const found = WITHOUT.has(words[0]) ? [] : words.slice(1, words[0] === "fork" ? 3 : 2);
  for (const line of step.r.slice(1)) {
    const it = /^(?:(?:zero|new|copy|map|join) )?(\d+) [\da-f]+( \d+)?$/.exec(line);
    if (it) found.push(it[1]);
  }
  return found.map(Number);
}

function showSpaces(step) {
  const touched = step ? touchedBy(step) : new Set();
  const changedPages = new Map();
  for (const key of [...change.used, ...change.entries.keys()]) {
    const number = processOf(key);
    if (!changedPages.has(number)) changedPages.set(number, []);
    changedPages.get(number).push(pageOf(key));
  }
  const numbers = [...new Set([...state.processes.keys(), ...change.died.keys()])]
    .filter(number => !only || only.has(number))
    .sort((a, b) => a - b);
  let total = 0;
  for (const number of numbers) total += (state.processes.get(number)?.rows.size || 0) + 2;
  const isOpen = number =>
    toggled.get(number) ?? (total <= MOST_ROWS || touched.has(number) || litIn(number));
  const open = numbers.filter(isOpen);
  for (const number of [...drawn.keys()]) if (!open.includes(number)) drawn.delete(number);
  const found = open.map(number => spaceBox(number, changedPages.get(number) || []));
  if (!numbers.length) found.push(make("p", "soft", `no${only ? " such" : ""} process lives`));
  const lives = Number(Object.fromEntries(statNumbers()).procs) - state.processes.size;
  if (lives > 0) found.push(make("p", "dim", `${lives} more live, of which nothing is known`));
  setChildren(at("spaces"), found);
  setChildren(at("others"), numbers.filter(it => !isOpen(it)).map(folded));
  markRows();
}

const buttons = new Map();

function folded(number) {
  if (!buttons.has(number)) {
    const it = make("button");
    it.onclick = () => toggle(number, true);
    buttons.set(number, it);
  }
  const isGone = !state.processes.has(number);
  const {rows, table} = isGone ? change.died.get(number) : state.processes.get(number);
  const entries = `${table.size} ${table.size === 1 ? "entry" : "entries"}`;
  const title = state.titles.has(number) ? `${state.titles.get(number)}, ` : "";
  const text = `process ${number}: ${title}${many(rows.size, "area")}, ${entries}`;
  setText(buttons.get(number), `${isGone ? "was " : ""}${text}`, isGone ? "gone" : "");
  return buttons.get(number);
}

function toggle(number, isOpen) {
  toggled.set(number, isOpen);
  redraw();
}

// whether a process has what is lit
function litIn(number) {
  const process = state.processes.get(number);
  if (!process) return false;
  if (lit.page >= 0 && rowAt(process, lit.page)) return true;
  return [...(state.owners.get(lit.frame) || [])].some(key => processOf(key) === number);
}

// the areas that map the frame that is lit, and the anon_vmas that all of them are linked to
function litRows() {
  return [...(state.owners.get(lit.frame) || [])].map(key => {
    const number = processOf(key);
    return {number, row: rowAt(state.processes.get(number), pageOf(key))};
  }).filter(it => it.row);
}

function litAnons(rows) {
  const [first, ...others] = rows.map(it => it.row.chain);
  if (lit.anon !== null) return new Set([lit.anon]);
  return new Set((first || []).filter(anon => others.every(it => it.includes(anon))));
}

const rowBoxes = () => [...at("spaces").querySelectorAll(".row")].filter(it => it.link);

function markRows() {
  const texts = new Set([...litRows()].map(({number, row}) => `${number} ${row.text}`));
  for (const box of rowBoxes()) {
    const {number, row} = box.link;
    const isLit = texts.has(`${number} ${row.text}`) || row.chain.includes(lit.anon);
    box.classList.toggle("lit", isLit && box.link.kind !== "gone");
  }
}

// where the list of areas has to be scrolled to, so that what changed or is lit is seen
function readScroll() {
  const box = at("scroll");
  const mark = lit.page >= 0 || lit.frame >= 0 ? box.querySelector(".lit") : null;
  const changed = () => box.querySelector(".cell.new, .dot.new");
  const it = mark || changed() || box.querySelector(".row.new, .gone") ||
    box.querySelector(".used");
  if (!it) return box.scrollTop;
  const [outer, inner] = [box.getBoundingClientRect(), it.getBoundingClientRect()];
  const isSeen = inner.top >= outer.top && inner.bottom <= outer.bottom;
  return isSeen ? box.scrollTop : box.scrollTop + inner.top - outer.top - outer.height / 3;
}

// anon_vmas beside the areas, a line for each member of a chain; an area's own is drawn thick
const SVG = "http:" + "//www.w3.org/2000/svg";

function draw(parent, tag, values, text) {
  const it = document.createElementNS(SVG, tag);
  for (const [key, value] of Object.entries(values)) it.setAttribute(key, value);
  if (text !== undefined) it.textContent = text;
  parent.append(it);
  return it;
}

// the areas whose links are drawn: all, or where these are too many, those that changed or are lit
function linkedRows() {
  const boxes = rowBoxes().filter(it => it.link.kind !== "gone" && it.link.row.chain.length);
  let links = 0;
  for (const it of boxes) links += it.link.row.chain.length;
  if (links <= MOST_LINKS) return boxes;
  const isMarked = it => it.matches(".new, .lit") || it.querySelector(".new, .lit");
  return boxes.filter(isMarked).slice(0, 60);
}

// where each anon_vma is drawn: at the middle of its areas, but apart from the next one (and once
// for each process, where not all of them fit on a screen)
function placesOf(rows, step, nameOf) {
  const sums = new Map();
  for (const {row, y, number} of rows) {
    for (const anon of row.chain) {
      const weight = row.own === anon ? 4 : 1;
      const sum = sums.get(nameOf(number, anon)) || {y: 0, weight: 0};
      sums.set(nameOf(number, anon), {anon, y: sum.y + weight * y, weight: sum.weight + weight});
    }
  }
  const places = [...sums].map(([name, it]) => ({name, anon: it.anon, y: it.y / it.weight}))
    .sort((a, b) => a.y - b.y || a.anon - b.anon);
  let next = step / 2;
  for (const it of places) {
    it.y = Math.max(it.y, next);
    next = it.y + step;
  }
  return places;
}

// (all places are read before anything is drawn: to read them in between costs a layout each)
function readAnons() {
  const boxes = linkedRows();
  const area = at("spaces");
  const em = parseFloat(getComputedStyle(document.documentElement).fontSize);
  const top = area.getBoundingClientRect().top;
  const rows = boxes.map(box => {
    const {top: y, height} = box.getBoundingClientRect();
    return {row: box.link.row, number: box.link.number, y: y - top + Math.min(height / 2, em)};
  });
  const isTall = rows.length > 0 && rows[rows.length - 1].y - rows[0].y > at("scroll").clientHeight;
  return {rows, em, height: area.offsetHeight, isTall};
}

function showAnons({rows, em, height, isTall}) {
  const area = at("spaces");
  area.querySelector("svg")?.remove();
  at("gutter").hidden = !rows.length;
  if (!rows.length) return;
  const nameOf = (number, anon) => (isTall ? `${number} ${anon}` : anon);
  const places = placesOf(rows, 2.1 * em, nameOf);
  const svg = document.createElementNS(SVG, "svg");
  svg.setAttribute("height", Math.max(height, places[places.length - 1].y + 1.2 * em));
  const chosen = litAnons(litRows());
  const x = 6.7 * em;
  const yOf = new Map(places.map(it => [it.name, it.y]));
  for (const {row, y, number} of rows) {
    for (const anon of row.chain) {
      const kind = `${row.own === anon ? "own" : ""} ${chosen.has(anon) ? "lit" : ""}`;
      draw(svg, "line", {
        x1: 2, y1: y, x2: x - em, y2: yOf.get(nameOf(number, anon)), class: kind,
        "data-link": `${row.text.split(" ")[0]} ${anon}`,
      });
    }
  }
  for (const {anon, y} of places) anonCircle(svg, anon, x, y, em, chosen.has(anon));
  area.append(svg);
}

function anonCircle(svg, anon, x, y, em, isLit) {
  const group = draw(svg, "g", {"data-anon": anon, class: isLit ? "lit" : "", tabindex: 0});
  const wide = Math.max(1, String(anon).length * 0.32 + 0.35) * em;
  const box = {x: x - em, y: y - 0.9 * em, width: wide + em, height: 1.8 * em, rx: 0.9 * em};
  draw(group, "rect", box);
  draw(group, "text", {x: x + (wide - em) / 2, y: y + 0.28 * em, "text-anchor": "middle"}, anon);
  group.addEventListener("click", () => light({anon: lit.anon === anon ? null : anon}));
}
