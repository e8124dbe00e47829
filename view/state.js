"use strict";
// The state that a page draws: what the operations of its steps lead to (view/told.py lists them).
// The page's script is this file, spaces.js, frames.js and page.js, one behind the other.
const at = id => document.getElementById(id);
const data = JSON.parse(at("data").textContent);
// (a page that is typed into gets others)
let last = data.steps.length;
// a process and a page, as one number
const PROCESS = 2 ** 36;
const keyOf = (process, page) => process * PROCESS + page;
const processOf = key => Math.floor(key / PROCESS);
const pageOf = key => key % PROCESS;
const hex = page => (page ? page.toString(16) + "000" : "0");

const state = {
  processes: new Map(), owners: new Map(), cached: new Map(), slots: new Map(),
  counts: new Map(), lists: new Map(), flight: new Map(), areas: new Map(), merged: new Map(),
  stat: "",
  listsKnown: true,
  // the pages of each area whose slots have a text: a set, and the same in order
  named: new Map(),
  // the names of processes, and of what is mapped in them
  titles: new Map(), mappings: new Map(),
};
// what the step shown changed: entries, rows and processes as they were, and frames
let change = null;
// what takes back the step that is applied
let undo = [];

function newChange() {
  return {
    entries: new Map(), gone: new Map(), fresh: new Map(), died: new Map(), born: new Set(),
    frames: new Map(), slots: new Set(), off: new Map(), used: new Set(),
    // frames that moved: where to, from which
    moves: new Map(),
  };
}

function setIn(map, key, value) {
  const had = map.has(key);
  const old = map.get(key);
  if (value === undefined) map.delete(key);
  else map.set(key, value);
  undo.push(() => (had ? map.set(key, old) : map.delete(key)));
}

const frameOf = code => (code[0] === "f" || code[0] === "F" ? Number(code.slice(1)) : -1);

function ownersChange(frame) {
  if (!change) return null;
  if (!change.frames.has(frame)) change.frames.set(frame, {added: new Set(), lost: new Set()});
  return change.frames.get(frame);
}

function link(key, code) {
  const frame = frameOf(code);
  if (frame < 0) return;
  if (!state.owners.has(frame)) state.owners.set(frame, new Set());
  state.owners.get(frame).add(key);
  ownersChange(frame)?.added.add(key);
}

function unlink(key, code) {
  const frame = frameOf(code);
  if (frame < 0) return;
  const owners = state.owners.get(frame);
  owners.delete(key);
  if (!owners.size) state.owners.delete(frame);
  ownersChange(frame)?.lost.add(key);
}

// (that of a page without a code is none, or isn't known)
const codeIn = (process, page) => process.table.get(page) ?? (process.dim ? "?" : "-");

function setEntry(number, page, code) {
  const process = state.processes.get(number);
  const old = process.table.get(page);
  const key = keyOf(number, page);
  if (change && !change.entries.has(key)) change.entries.set(key, codeIn(process, page));
  const lay = (from, to) => {
    if (from !== undefined) unlink(key, from);
    if (to === undefined) process.table.delete(page);
    else process.table.set(page, to);
    if (to !== undefined) link(key, to);
    process.dirty?.add(page);
    process.sorted = null;
  };
  const now = code === "-" && !process.dim ? undefined : code;
  lay(old, now);
  undo.push(() => lay(now, old));
}

function newProcess() {
  return {table: new Map(), rows: new Map(), dim: false, dirty: null, sorted: null, order: null};
}

function addProcess(number, process) {
  state.processes.set(number, process);
  change?.born.add(number);
  for (const [page, code] of process.table) link(keyOf(number, page), code);
  undo.push(() => {
    for (const [page, code] of process.table) unlink(keyOf(number, page), code);
    state.processes.delete(number);
  });
}

function dropProcess(number) {
  const process = state.processes.get(number);
  for (const [page, code] of process.table) unlink(keyOf(number, page), code);
  state.processes.delete(number);
  change?.died.set(number, process);
  undo.push(() => {
    state.processes.set(number, process);
    for (const [page, code] of process.table) link(keyOf(number, page), code);
    process.dirty = null;
  });
}

// the pages of a table in a range
function pagesIn(table, first, count) {
  const found = [];
  if (count < table.size) {
    for (let page = first; page < first + count; page++) if (table.has(page)) found.push(page);
  } else {
    for (const page of table.keys()) if (first <= page && page < first + count) found.push(page);
  }
  return found;
}

function parseRow(text) {
  const [, start, end, prot, off, own, chain] =
    /^(\w+)-(\w+) (\S+) off=(\w+) own=(\S+) chain=(\S+)/.exec(text);
  return {
    text, prot, off, own, chain: chain === "-" ? [] : chain.split(","),
    start: parseInt(start, 16) / 4096, end: parseInt(end, 16) / 4096,
    isLocked: / locked\b/.test(text),
  };
}

function changeRows(number, gone, fresh) {
  const process = state.processes.get(number);
  const old = gone.map(start => process.rows.get(start));
  const rows = fresh.map(parseRow);
  const lay = (away, here) => {
    for (const row of away) process.rows.delete(row.start);
    for (const row of here) process.rows.set(row.start, row);
    process.order = null;
  };
  lay(old, rows);
  undo.push(() => lay(rows, old));
  if (!change) return;
  change.gone.set(number, [...(change.gone.get(number) || []), ...old]);
  change.fresh.set(number, [...(change.fresh.get(number) || []), ...rows]);
}

function moveEntries(number, first, to, count) {
  const table = state.processes.get(number).table;
  const codes = pagesIn(table, first, count).map(page => [page, table.get(page)]);
  for (const [page] of codes) clearEntry(number, page);
  for (const [page, code] of codes) setEntry(number, page - first + to, code);
}

// (nothing is known of the page then, which in most processes means that there is no entry)
function clearEntry(number, page) {
  const process = state.processes.get(number);
  const {dim} = process;
  process.dim = false;
  setEntry(number, page, "-");
  process.dim = dim;
}

function cacheSlot(slot, frame) {
  const old = state.cached.get(slot);
  if (old !== undefined) setIn(state.slots, old, undefined);
  setIn(state.cached, slot, frame < 0 ? undefined : frame);
  if (frame >= 0) setIn(state.slots, frame, slot);
  for (const it of [old, frame]) if (it >= 0) ownersChange(it);
  change?.slots.add(slot);
}

function setMerged(frame, isMerged) {
  const soil = () => {
    for (const key of state.owners.get(frame) || []) {
      state.processes.get(processOf(key)).dirty?.add(pageOf(key));
    }
  };
  setIn(state.merged, frame, isMerged || undefined);
  ownersChange(frame);
  soil();
  undo.push(soil);
}

function moveFrame(frame, to) {
  for (const key of [...(state.owners.get(frame) || [])]) {
    const [number, page] = [processOf(key), pageOf(key)];
    setEntry(number, page, codeIn(state.processes.get(number), page)[0] + to);
  }
  const slot = state.slots.get(frame);
  if (slot !== undefined) cacheSlot(slot, to);
  for (const map of [state.lists, state.merged]) {
    setIn(map, to, map.get(frame));
    setIn(map, frame, undefined);
  }
  for (const it of [frame, to]) ownersChange(it);
  change?.moves.set(to, frame);
}

const areaOf = slot => Number(slot.split(":")[0]), slotPage = slot => Number(slot.split(":")[1]);

// adds a slot to those of its area that have a text, or takes it away
function turnNamed(slot) {
  const [area, page] = [areaOf(slot), slotPage(slot)];
  if (!state.named.has(area)) state.named.set(area, {pages: new Set(), sorted: null});
  const named = state.named.get(area);
  if (!named.pages.delete(page)) named.pages.add(page);
  named.sorted = null;
}

function setCount(slot, text) {
  const isNew = state.counts.has(slot) !== Boolean(text);
  setIn(state.counts, slot, text || undefined);
  if (!isNew) return;
  turnNamed(slot);
  undo.push(() => turnNamed(slot));
}

function setField(object, name, value) {
  const old = object[name];
  object[name] = value;
  undo.push(() => { object[name] = old; });
}

const operations = {
  p: number => {
    addProcess(number, newProcess());
    setIn(state.titles, number, undefined);
    setIn(state.mappings, number, undefined);
  },
  x: dropProcess,
  f: (number, child) => {
    const parent = state.processes.get(number);
    const process = newProcess();
    process.dim = parent.dim;
    for (const [page, code] of parent.table) process.table.set(page, code.replace("F", "f"));
    addProcess(child, process);
    setIn(state.titles, child, state.titles.get(number));
    setIn(state.mappings, child, state.mappings.get(number));
  },
  e: setEntry,
  d: (number, first, count) => {
    const {table} = state.processes.get(number);
    for (const page of pagesIn(table, first, count)) clearEntry(number, page);
  },
  m: moveEntries,
  u: number => {
    const process = state.processes.get(number);
    for (const page of [...process.table.keys()]) clearEntry(number, page);
    setField(process, "dim", true);
    process.dirty = null;
    undo.push(() => { process.dirty = null; });
  },
  a: changeRows,
  c: cacheSlot,
  k: (slot, text) => {
    // (the area of a slot without a text is off)
    if (change && !text) change.off.set(slot, state.counts.get(slot));
    setCount(slot, text);
    change?.slots.add(slot);
  },
  l: (frame, list, place) => {
    setIn(state.lists, frame, list ? {list, place} : undefined);
    ownersChange(frame);
  },
  w: (slot, place) => {
    setIn(state.flight, slot, place || undefined);
    change?.slots.add(slot);
  },
  g: setMerged,
  v: moveFrame,
  t: (area, text) => setIn(state.areas, area, text || undefined),
  o: isKnown => setField(state, "listsKnown", Boolean(isKnown)),
  s: text => setField(state, "stat", text),
  n: (number, name) => setIn(state.titles, number, name),
  b: (number, first, count, name) => {
    const all = state.mappings.get(number) || [];
    const [end, rest] = [first + count, []];
    for (const it of all) {
      if (it.start < first) rest.push({...it, end: Math.min(it.end, first)});
      if (it.end > end) rest.push({...it, start: Math.max(it.start, end)});
    }
    if (name) rest.push({start: first, end, name});
    setIn(state.mappings, number, rest);
  },
};

// the names of what is mapped in a row, by address
function namesIn(number, row) {
  const found = (state.mappings.get(number) || [])
    .filter(it => it.start < row.end && row.start < it.end)
    .sort((a, b) => a.start - b.start);
  return [...new Set(found.map(it => it.name))].join(", ");
}

const apply = ops => ops.forEach(([name, ...of]) => operations[name](...of));

// how many steps are applied, and for each of them what takes it back
let done = 0;
const undos = [];

function move(wanted) {
  for (; done > wanted; done--) {
    for (const it of undos.pop().reverse()) it();
  }
  for (; done < wanted; done++) {
    undo = [];
    apply(data.steps[done].o);
    undos.push(undo);
  }
}

// Goes to a step by way of the one before it, so that what it changes is seen.
// goes to the state before a step, of which nothing is shown then
function moveBefore(n) {
  frameCells.clear();
  change = null;
  move(n - 1);
  change = newChange();
}

function moveTo(n) {
  // (far away every frame may be another)
  if (Math.abs(n - done) > 1) frameCells.clear();
  change = null;
  move(Math.max(n - 1, 0));
  change = newChange();
  move(n);
  if (n) change.used = new Set(pagesUsed(data.steps[n - 1]));
}

// the pages that a command read, wrote or asked of, also where it changed nothing; of one that
// stopped at a byte those up to there
function pagesUsed(step) {
  const [name, process, address, word] = step.c.split(" ");
  const [kind, byte] = step.r[0].split(" ");
  const sizes = {read: () => Number(word), write: () => word.length / 2, entry: () => 1, rmap: () => 1};
  if (!sizes[name] || kind === "err") return [];
  const count = /^(segv|oom|bus)$/.test(kind) ? Number(byte) + 1 : sizes[name]();
  const first = parseInt(address, 16);
  const [from, to] = [Math.floor(first / 4096), Math.floor((first + count - 1) / 4096)];
  return Array.from({length: to - from + 1}, (_, i) => keyOf(Number(process), from + i));
}

apply(data.base);

// the areas of a process by address, and its pages that have a code
function rowsOf(process) {
  process.order ??= [...process.rows.values()].sort((a, b) => a.start - b.start);
  return process.order;
}

function sortedPages(process) {
  process.sorted ??= Float64Array.from(process.table.keys()).sort();
  return process.sorted;
}

function sortedSlots(named) {
  named.sorted ??= Float64Array.from(named.pages).sort();
  return named.sorted;
}

// the first place in a sorted list whose value isn't below
function lowerBound(list, value, of = it => it) {
  let [low, high] = [0, list.length];
  while (low < high) {
    const middle = (low + high) >> 1;
    if (of(list[middle]) < value) low = middle + 1;
    else high = middle;
  }
  return low;
}

// a frame is locked while an entry of a locked page names it
const isLocked = frame => [...(state.owners.get(frame) || [])]
  .some(key => rowAt(state.processes.get(processOf(key)), pageOf(key))?.isLocked);

function rowAt(process, page) {
  const rows = rowsOf(process);
  const row = rows[lowerBound(rows, page + 1, it => it.start) - 1];
  return row && page < row.end ? row : undefined;
}
