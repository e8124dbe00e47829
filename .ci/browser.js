// Put behind a page's own script by .ci/view: goes through its steps, and leaves in the page what
// stood there at each.
"use strict";
isLazy = false;
for (let number = 1; number < 10; number++) toggled.set(number, true);
frameCells.clear();
redraw();

const code = cell => {
  if (cell.classList.contains("dot")) return cell.dataset.at.split(" ")[2];
  const text = cell.textContent;
  if (cell.classList.contains("slot")) return `s${text}`;
  const seen = cell.classList.contains("old") ? "f" : "F";
  return {"\u00b7": "-", zero: "z", "?": "?"}[text] || seen + text;
};

function shown() {
  const found = [`place ${at("place").textContent}`];
  for (const box of document.querySelectorAll("#spaces .row:not(.gone):not(.hole)")) {
    const [text, ...cells] = [box.querySelector(".text"), ...box.querySelectorAll("[data-at]")];
    found.push(`area ${box.link.number} ${text.textContent}`);
    for (const it of cells) {
      const [process, page] = it.dataset.at.split(" ");
      found.push(`entry ${process} ${page} ${code(it)}`);
    }
  }
  for (const card of document.querySelectorAll("#cards .card")) {
    const lines = [...card.querySelectorAll("div:not(.gone):not(.soft)")];
    const owners = lines.map(it => it.textContent);
    if (owners.length) found.push(`frame ${card.dataset.frame} ${owners.join(", ")}`);
  }
  for (const it of document.querySelectorAll("[data-link]")) found.push(`link ${it.dataset.link}`);
  if (!at("swap").hidden) {
    for (const title of document.querySelectorAll("#lists h3")) {
      const all = title.nextSibling.querySelectorAll(".cell:not(.gone)");
      const cells = [...all].map(it => it.textContent);
      found.push(`${title.textContent}: ${cells.join(", ")}`);
    }
  }
  return found.sort().join("\n");
}

const press = key => document.dispatchEvent(new KeyboardEvent("keydown", {key, bubbles: true}));
const walks = [[], [], []];
press("Home");
for (let n = 0; n <= last; n++, press("ArrowRight")) walks[0].push(shown());
for (let n = last; n >= 0; n--, press("ArrowLeft")) walks[1].unshift(shown());
const leaps = [last, 1, last >> 1];
for (let n = 0; n < last; n += 5) leaps.push(n + 9, n);
for (const n of leaps) { go(n); walks[2].push(shown()); }
press("End");
const facts = {place: at("place").textContent};
at("slider").value = 2;
at("slider").dispatchEvent(new Event("input"));
facts.slider = at("place").textContent;
press("End");
toggled.clear();
at("only").value = "1";
at("only").dispatchEvent(new Event("input"));
facts.only = [...document.querySelectorAll("#spaces h3")].map(it => it.textContent);
at("only").value = "";
at("only").dispatchEvent(new Event("input"));
const lamp = document.querySelector("#cards .card:not(.none)");
lamp?.click();
facts.frame = lamp?.dataset.frame;
facts.lit = [...document.querySelectorAll("#spaces .lit[data-at]")].map(it => it.dataset.at);
at("find").value = "20123";
at("find").dispatchEvent(new Event("input"));
facts.found = at("found").textContent;
// the pages that each step used, text that is found and stepped through, and a cell by the keys
const usedNow = () => [...document.querySelectorAll("#spaces .used")].map(it => it.dataset.at);
facts.used = [];
for (let n = 1; n <= Math.min(last, 12); n++) { go(n); facts.used.push(usedNow().join(", ")); }
go(last);
const [outer, inner] = ["#scroll", "#spaces .used"]
  .map(it => document.querySelector(it)?.getBoundingClientRect());
facts.inSight = inner && [at("scroll").scrollTop > 0, outer.top <= inner.top,
  inner.bottom <= outer.bottom];
const type = text => {
  at("find").value = text;
  at("find").dispatchEvent(new Event("input"));
};
go(0);
type("fork");
const pressIn = (key, shiftKey) =>
  at("find").dispatchEvent(new KeyboardEvent("keydown", {key, shiftKey, bubbles: true}));
facts.texts = [at("found").textContent];
for (const isBack of [false, false, true]) {
  pressIn("Enter", isBack);
  facts.texts.push(`${here}: ${at("found").textContent}`);
}
type("");
go(last);
const cell = document.querySelector("#spaces [data-at]");
cell?.focus();
facts.told = at("found").textContent;
cell?.dispatchEvent(new KeyboardEvent("keydown", {key: "Enter", bubbles: true}));
facts.focus = [document.activeElement.dataset.at, lit.frame];
// captions and names at the first steps, and what is hidden of one until it is asked for
at("find").value = "";
at("find").dispatchEvent(new Event("input"));
toggled.clear();
const texts = selector => [...document.querySelectorAll(selector)].map(it => it.textContent);
[facts.named, facts.stuck] = [[], []];
for (let n = 1; n <= Math.min(last, 12); n++) {
  go(n);
  const names = texts("#spaces h3:not(.gone), #spaces .row:not(.gone) .name");
  facts.named.push([at("comment").textContent, ...names].join("; "));
  for (const it of document.querySelectorAll("#spaces .row .name")) {
    if (!it.previousSibling.textContent.endsWith(" ")) facts.stuck.push(it.textContent);
  }
}
const isEmpty = () => !document.querySelectorAll("#spaces .new, #cards .new").length;
const answer = () => [at("reply").textContent, texts("#lines [aria-current] .soft")[0], isEmpty()];
at("hide").click();
go(Math.min(last, 3));
facts.hidden = [answer()];
press("Enter");
facts.hidden.push(answer());
press("ArrowLeft");
facts.hidden.push(answer());
at("hide").click();
facts.hidden.push(answer());
const result = {walks, facts, height: document.documentElement.scrollHeight - window.innerHeight};
document.body.replaceChildren(make("pre", "", JSON.stringify(result)));
