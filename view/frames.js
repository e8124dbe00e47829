// Draws frames with who maps them, the lists, and slots.

const place = key => `${processOf(key)} ${hex(pageOf(key))}`;
const inUse = frame => state.owners.has(frame) || state.slots.has(frame);
const usedFrames = () => new Set([...state.owners.keys(), ...state.slots.keys()]);
const freeFrames = () => Number(Object.fromEntries(statNumbers()).free ?? data.frames);
// (where entries aren't known, a frame that none is known to name may be in use)
const areKnown = () => data.frames - usedFrames().size === freeFrames();

function cardOf(frame) {
  const {added, lost} = change.frames.get(frame) || {added: new Set(), lost: new Set()};
  const owners = [...(state.owners.get(frame) || [])].sort((a, b) => a - b);
  const slot = state.slots.get(frame);
  const isMerged = state.merged.has(frame);
  const card = make("span", "card");
  card.append(make("b", "", `frame ${frame}${owners.length > 1 ? ` maps ${owners.length}` : ""}`));
  // (of a merged one all that share it)
  const most = isMerged ? MOST_CELLS : MOST_OWNERS;
  const more = owners.length - most;
  for (const key of owners.slice(0, most)) card.append(make("div", "", place(key)));
  if (more > 0) card.append(make("div", "soft", `and ${more} more`));
  if (slot) card.append(make("div", "", `cached at ${slot}`));
  if (isLocked(frame)) card.append(make("div", "", "locked"));
  card.classList.toggle("locked", isLocked(frame));
  if (isMerged) card.append(make("div", "", "merged"));
  card.classList.toggle("merged", isMerged);
  if (inUse(frame)) card.style.background = colour(frame);
  else card.append(make("div", "soft", areKnown() ? "\u2013" : "?"));
  if (!inUse(frame)) card.classList.add("none");
  const gone = [...lost].filter(key => !state.owners.get(frame)?.has(key)).sort((a, b) => a - b);
  for (const key of gone.slice(0, MOST_OWNERS)) {
    card.append(make("div", "gone", `was ${place(key)}`));
  }
  const from = change.moves.get(frame);
  if (from !== undefined) card.append(make("div", "gone", `was frame ${from}`));
  if (gone.length || [...added].some(key => !lost.has(key))) card.classList.add("new");
  if (frame === lit.frame) card.classList.add("lit");
  card.tabIndex = 0;
  card.dataset.frame = frame;
  return card;
}

// (those that a step doesn't touch stay as they were drawn)
const frameCells = new Map();

function frameCell(frame) {
  const isMarked = change.frames.has(frame) || frame === lit.frame;
  const kept = frameCells.get(frame);
  if (kept && !kept.isMarked && !isMarked && kept.isLocked === isLocked(frame)) return kept.cell;
  frameCells.set(frame, {cell: newFrameCell(frame), isMarked, isLocked: isLocked(frame)});
  return frameCells.get(frame).cell;
}

function newFrameCell(frame) {
  const cell = make("span", inUse(frame) ? "cell" : "cell none", frame);
  const owners = state.owners.get(frame)?.size || 0;
  if (inUse(frame)) cell.style.background = colour(frame);
  if (change.frames.has(frame)) cell.classList.add("new");
  if (frame === lit.frame) cell.classList.add("lit");
  if (isLocked(frame)) cell.classList.add("locked");
  if (state.merged.has(frame)) cell.classList.add("merged");
  cell.tabIndex = 0;
  cell.dataset.frame = frame;
  const more = `${isLocked(frame) ? ", locked" : ""}${state.merged.has(frame) ? ", merged" : ""}`;
  cell.title = `frame ${frame} maps ${owners}${more}`;
  return cell;
}

// Frames that moved come from the place of the one that they were.
function showMoves() {
  if (matchMedia("(prefers-reduced-motion: reduce)").matches) return;
  for (const box of [at("cards"), at("frames")]) {
    for (const [to, frame] of change.moves) {
      const [here, there] = [to, frame].map(it => box.querySelector(`[data-frame="${it}"]`));
      if (!here || !there) continue;
      const [end, begin] = [here, there].map(it => it.getBoundingClientRect());
      const from = `translate(${begin.x - end.x}px, ${begin.y - end.y}px)`;
      const how = {duration: 700, easing: "ease-in-out"};
      here.animate([{transform: from}, {transform: "none"}], how);
    }
  }
}

// Few frames are cards, with who maps them. Of many, those that changed are cards, and others in
// use are small.
function showFrames() {
  const changed = [...change.frames.keys()].sort((a, b) => a - b);
  if (data.frames <= MOST_CARDS) {
    at("cards").replaceChildren(...Array.from({length: data.frames}, (_, i) => cardOf(i)));
    return;
  }
  const cards = new Set(changed.slice(0, 8));
  if (lit.frame >= 0) cards.add(lit.frame);
  const used = usedFrames();
  const numbers = [...used].sort((a, b) => a - b);
  const shown = new Set([...changed.slice(0, MOST_CHANGED), ...numbers.slice(0, MOST_CELLS)]);
  const cells = [...shown].sort((a, b) => a - b).map(frameCell);
  const more = numbers.filter(it => !shown.has(it)).length;
  const hidden = data.frames - used.size - freeFrames();
  const free = `${many(freeFrames(), "frame")} free${hidden ? `, ${hidden} not known` : ""}`;
  at("cards").replaceChildren(...[...cards].map(cardOf));
  setChildren(at("frames"), cells);
  setText(at("free"), `${more ? `and ${more} more in use; ` : ""}${free}`, "soft");
}

function statNumbers() {
  return state.stat.split(" ").filter(it => it).map(it => it.split("="));
}

function showStat() {
  const isSwap = hasSwap();
  const later = new Set(["active", "inactive", "flight", "slots", "freeslots"]);
  const shown = statNumbers().filter(([name]) => isSwap || !later.has(name));
  at("stat").replaceChildren(...shown.map(([name, value]) => {
    const pair = make("div");
    pair.append(make("dt", "", name), make("dd", "", value));
    return pair;
  }));
}

function hasSwap() {
  const stat = Object.fromEntries(statNumbers());
  return ["active", "flight", "slots"].some(it => Number(stat[it]))
    || state.counts.size > 0 || change.off.size > 0;
}

function listOf(title, things, cellOf, said, count = things.length) {
  const box = make("div", "cells");
  const shown = things.slice(0, MOST_CELLS);
  const more = count - shown.length;
  box.append(...shown.map(it => cellOf(it)));
  if (more > 0) box.append(make("span", "soft", `and ${more} more`));
  if (!things.length) box.append(make("span", "soft", said));
  return [make("h3", "", title), box];
}

function slotCell(slot, text) {
  // (one that nothing names is free)
  const looks = {"?": " dim", "count 0": " none"}[text] || "";
  const isNew = change.slots.has(slot) ? " new" : "";
  const cell = make("span", `cell slot${isNew}${looks}`, `${slot} ${text}`.trim());
  cell.dataset.slot = slot;
  return cell;
}

// one of an area that has just gone off, as it was
function goneSlotCell(slot) {
  const cell = make("span", "cell gone", `was ${slot}`);
  cell.title = change.off.get(slot);
  return cell;
}

// the lists, numbered as in view/told.py, head first; and what is in flight, the first to be
// completed first
const INACTIVE = 1, ACTIVE = 2;
const framesIn = list => [...state.lists].filter(([, it]) => it.list === list)
  .sort(([, a], [, b]) => b.place - a.place).map(([frame]) => frame);
const inFlight = () => [...state.flight].sort(([, a], [, b]) => a - b).map(([slot]) => slot);

// the slots of an area that are drawn, in order; where they are too many, those that changed come
// first. `gone` are those of an area that has just gone off.
function slotsOf(area, gone) {
  const named = state.named.get(area);
  const pages = named ? sortedSlots(named) : [];
  const count = pages.length + gone.length;
  const inOrder = (a, b) => slotPage(a) - slotPage(b);
  if (count <= MOST_CELLS) {
    return {slots: [...[...pages].map(it => `${area}:${it}`), ...gone].sort(inOrder), count};
  }
  const isHere = it => areaOf(it) === area && state.counts.has(it);
  const changed = [...[...change.slots].filter(isHere), ...gone].sort(inOrder);
  const others = [];
  for (let i = 0; i < pages.length && changed.length + others.length < MOST_CELLS; i++) {
    if (!change.slots.has(`${area}:${pages[i]}`)) others.push(`${area}:${pages[i]}`);
  }
  return {slots: [...changed, ...others], count};
}

// the slots of each swap area that is on, or of which a slot is shown, with what is said of it
function slotLists() {
  const isGone = it => !state.counts.has(it) && change.off.get(it) !== "count 0";
  const gone = [...change.off.keys()].filter(isGone);
  const named = [...state.named].filter(([, it]) => it.pages.size).map(([area]) => area);
  const areas = [...new Set([...state.areas.keys(), ...named, ...gone.map(areaOf)])];
  if (!areas.length) return listOf("slots", [], slotCell, "none was named");
  return areas.sort((a, b) => a - b).flatMap(area => {
    const {slots, count} = slotsOf(area, gone.filter(it => areaOf(it) === area));
    const cellOf = it => (state.counts.has(it) ? slotCell(it, state.counts.get(it)) : goneSlotCell(it));
    const title = `slots of area ${area}: ${state.areas.get(area) ?? "off"}`;
    return listOf(title, slots, cellOf, "none was named", count);
  });
}

function showSwap() {
  at("swap").hidden = !hasSwap();
  if (at("swap").hidden) return;
  const known = state.listsKnown;
  const list = (name, of, cellOf) => {
    const things = known ? of() : [];
    const count = known ? things.length : "not known";
    return listOf(`${name}: ${count}`, things, cellOf, known ? "none" : "?");
  };
  at("lists").replaceChildren(
    ...list("active, from the head", () => framesIn(ACTIVE), newFrameCell),
    ...list("inactive, from the head", () => framesIn(INACTIVE), newFrameCell),
    ...list("in flight, in order", inFlight, slot => slotCell(slot, "")), ...slotLists());
}
