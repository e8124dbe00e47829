// The page that is typed into: asks for what is typed, and takes the steps that are other ones.
// Requests go one after the other; what each asks is made when its turn comes.
let version = data.version;
// the command in whose place the line goes (0: behind the one that is shown)
let changing = 0;
let turn = Promise.resolve();
// bytes of a linked trace: as many as a request may have
const MOST_LINKED = 2 ** 21;
// rows of a comparison, and entries that are compared
const MOST_COMPARED = 400, MOST_ENTRIES = 20000;

const post = ask =>
  (turn = turn.then(() => send(ask())).catch(why => say(`no answer: ${why.message}`)));

async function send(what) {
  const began = performance.now();
  const answer = await fetch("do", {
    method: "POST", headers: {"Content-Type": "application/json"},
    body: JSON.stringify({version, here: Math.max(here, 0), ...what}),
  });
  if (!answer.ok) return say(`refused: ${(await answer.text()).trim()}`);
  const got = await answer.json();
  const arrived = performance.now();
  if (got.help !== undefined) return say(got.help, true);
  if (got.steps) takeSteps(got);
  if (got.refused) refuse(what, got.refused);
  else if (what.do !== "more") say("");
  // (the checks read it)
  window.took = {answer: arrived - began, drawn: performance.now() - arrived};
  if (got.more) setTimeout(() => post(() => ({do: "more", at: data.steps.length})), 0);
}

function refuse(what, rows) {
  const isLong = rows.length > 1 || rows[0][0] > 1;
  say(rows.map(([n, , why]) => (isLong && n ? `line ${n}: ` : "") + why).join("\n"));
  // (what was typed is there again, to be mended)
  if (what.do !== "put" || at("line").value) return;
  changeLine(what.instead ? what.at : 0);
  at("line").value = what.text;
}

// the steps from one on are others
function takeSteps(it) {
  version = it.version;
  if (it.from < data.steps.length || it.show !== undefined) goBack(it.from);
  data.steps.length = it.from;
  for (const step of it.steps) data.steps.push(step);
  last = data.steps.length;
  if (it.frames !== data.frames) {
    at("frames").replaceChildren();
    at("free").textContent = "";
  }
  for (const key of ["total", "frames", "title", "most", "said"]) data[key] = it[key];
  if (revealed) revealed = new Set([...revealed].filter(n => n <= it.from));
  listSteps();
  showTitle();
  setButtons(it);
  if (it.show === undefined && here <= it.from) {
    at("place").textContent = `${here} of ${data.total}`;
    showLines(readLines());
    return;
  }
  const shown = it.show ?? here;
  here = -1;
  play(false);
  show(shown);
}

// the steps behind one are taken back
function goBack(n) {
  if (done > n) {
    change = null;
    move(n);
    change = newChange();
  }
  drawn.clear();
  frameCells.clear();
}

function setButtons(it) {
  at("undo").disabled = !it.undo;
  at("redo").disabled = !it.redo;
}

function say(text, isHelp = false) {
  at("refused").textContent = text;
  at("refused").classList.toggle("help", isHelp);
  // (the list has another height now)
  scrollLines(readLines());
}

// what is typed next goes in the place of a command, or (0) behind the one that is shown
function changeLine(n) {
  changing = n;
  at("typing").classList.toggle("changing", n > 0);
  if (!n) return;
  at("line").value = data.steps[n - 1].c;
  at("line").focus();
}

const undoLast = () => post(() => ({do: "undo"}));
const redoLast = () => post(() => ({do: "redo"}));
const takeOut = () => post(() => ({do: "out", at: here}));
const changeHere = () => here > 0 && changeLine(here);

// what is typed: commands, or a word of the page's own
function typed(text) {
  const [name, of] = text.trim().split(/\s+/);
  const instead = changing > 0, place = changing;
  at("line").value = "";
  changeLine(0);
  if (!name) return;
  if (/#trace=/.test(text)) openLink(text);
  else if (/^(\?|help)$/.test(name)) post(() => ({do: "help", text: of || ""}));
  else if (name === "undo" && !of) undoLast();
  else if (name === "redo" && !of) redoLast();
  else post(() => ({do: "put", at: instead ? place : here, text, instead}));
}

at("typing").addEventListener("submit", event => {
  event.preventDefault();
  typed(at("line").value);
});
at("line").addEventListener("keydown", event => {
  const isFree = !at("line").value && /^Arrow(Up|Down)$/.test(event.key);
  if (event.key === "Escape") {
    at("line").value = "";
    changeLine(0);
    say("");
  } else if (event.key === "Enter") {
    typed(at("line").value);
  } else if (isFree) {
    // (an empty line leaves these keys to the steps)
    keys[event.key]();
  } else {
    return;
  }
  event.preventDefault();
});
// (what is pasted may be several lines)
at("line").addEventListener("paste", event => {
  const text = event.clipboardData.getData("text").trim();
  if (!text.includes("\n")) return;
  event.preventDefault();
  typed(text);
});

const liveKeys = {F2: changeHere, Delete: takeOut, "ctrl z": undoLast, "ctrl y": redoLast};

document.addEventListener("keydown", event => {
  const does = liveKeys[(event.ctrlKey ? "ctrl " : "") + event.key];
  const isText = event.target.tagName === "INPUT" && event.target.type !== "range";
  // (a line with text has its own undo)
  const isEmpty = event.target === at("line") && !at("line").value;
  if (!does || isText && (!isEmpty || event.key === "Delete")) return;
  does();
  event.preventDefault();
});
at("change").onclick = changeHere;
at("out").onclick = takeOut;
at("undo").onclick = undoLast;
at("redo").onclick = redoLast;
at("open").onclick = () => at("file").click();
at("file").onchange = async () => {
  const file = at("file").files[0];
  if (file) openTrace(await file.text(), file.name);
  at("file").value = "";
};
const openTrace = (text, title) => post(() => ({do: "open", text, title}));

const traceNow = async () => (await fetch("trace")).blob();
at("save").onclick = async () => {
  const it = make("a");
  it.href = URL.createObjectURL(await traceNow());
  it.download = data.title.endsWith(".trace") ? data.title : `${data.title}.trace`;
  it.click();
  setTimeout(() => URL.revokeObjectURL(it.href), 10000);
};

// A link has the trace, made small, behind the sign #, and its title.
async function linkText() {
  const small = (await traceNow()).stream().pipeThrough(new CompressionStream("deflate-raw"));
  let text = "";
  for (const it of new Uint8Array(await new Response(small).arrayBuffer())) {
    text += String.fromCharCode(it);
  }
  const plain = btoa(text).replace(/\+/g, "-").replace(/\//g, "_").replace(/=+$/, "");
  return `#trace=${plain}&title=${encodeURIComponent(data.title)}`;
}

// (of a few bytes very many may come: it stops at what a request may have)
async function textOfLink(text) {
  const plain = atob(text.replace(/-/g, "+").replace(/_/g, "/"));
  const bytes = Uint8Array.from(plain, it => it.charCodeAt(0));
  const grown = new Blob([bytes]).stream().pipeThrough(new DecompressionStream("deflate-raw"));
  const reader = grown.getReader();
  const parts = [];
  for (let size = 0, it; !(it = await reader.read()).done;) {
    size += it.value.length;
    if (size > MOST_LINKED) throw new Error("it is too long");
    parts.push(it.value);
  }
  return new Blob(parts).text();
}

async function openLink(text) {
  const words = new URLSearchParams(text.slice(text.indexOf("#") + 1).trim());
  try {
    openTrace(await textOfLink(words.get("trace")), words.get("title") || "linked");
  } catch (why) {
    say(`that link has no trace: ${why.message}`);
  }
}

at("lessons").onclick = () => location.assign("lessons/");
at("link").onclick = async () => {
  const text = await linkText();
  history.replaceState(null, "", text);
  await navigator.clipboard?.writeText(text).catch(() => {});
  say(`${text.length} characters, in the address and on the clipboard`, true);
};

const linked = () => /^#trace=/.test(location.hash) && openLink(location.hash);
window.addEventListener("hashchange", linked);

// Two states side by side: the one that was shown before, and this one.

// a state in words, each by a key that sorts
function wordsOfState() {
  const found = new Map();
  const tell = (key, name, text) => found.set(key, {name, text});
  const padded = (it, width, base = 10) => it.toString(base).padStart(width);
  const place = (number, page) => `p${padded(number, 5)} ${padded(page, 13, 16)}`;
  const size = [...state.processes.values()].reduce((sum, it) => sum + it.table.size, 0);
  for (const [number, process] of size > MOST_ENTRIES ? [] : state.processes) {
    tell(place(number, 0), `process ${number}`, "lives");
    for (const it of rowsOf(process)) {
      tell(place(number, it.start), `${number} ${hex(it.start)}`, it.text);
    }
    for (const [page, code] of process.table) {
      tell(`${place(number, page)} e`, `${number} ${hex(page)}`, entryText(code));
    }
  }
  for (const [frame, {list}] of state.lists) {
    tell(`q${padded(frame, 5)}`, `frame ${frame}`, list > 1 ? "active" : "inactive");
  }
  for (const [slot, text] of state.counts) tell(`s${slot}`, `slot ${slot}`, text);
  tell("t", "stat", state.stat);
  return found;
}

let now = wordsOfState();
let before = now;
let isComparing = false;

function compare() {
  const all = [...new Set([...before.keys(), ...now.keys()])].sort();
  const rows = all.map(key => [(now.get(key) || before.get(key)).name, before.get(key)?.text || "",
    now.get(key)?.text || ""]);
  const differ = rows.filter(([, old, fresh]) => old !== fresh);
  const shown = (rows.length > MOST_COMPARED ? differ : rows).slice(0, MOST_COMPARED);
  at("compared").replaceChildren(...shown.map(rowOf));
  at("differs").textContent = `${many(differ.length, "line")} of ${rows.length} ${
    differ.length === 1 ? "differs" : "differ"}`;
}

function rowOf([name, old, fresh]) {
  const row = make("tr", old === fresh ? "" : "differs");
  row.append(make("th", "", name), make("td", "", old), make("td", "", fresh));
  return row;
}

window.onstep = () => {
  [before, now] = [now, wordsOfState()];
  if (isComparing) compare();
};
at("compare").onclick = () => {
  isComparing = !isComparing;
  at("beside").hidden = !isComparing;
  if (isComparing) compare();
};

setButtons(data);
if (data.more) post(() => ({do: "more", at: data.steps.length}));
linked();
at("line").focus();
