// What the page shows: the waveform, its rows, the list from which they are picked, and what is told of a signal.
const run = JSON.parse(document.getElementById("run").textContent);
const byId = (id) => document.getElementById(id);
const COLOURS = ["fore", "faint", "line", "panel", "wave", "box", "event", "fault"];
const CLOSED_ON_PHONES = ["program", "links"];
const MOST_TOLD = 4, DRAG = 5, AXIS = 26, LETTER = 7.9;
const SPAN = limited(run.count, LEAST_SPAN, FIRST_SPAN);
const note = byId("note").textContent;
const state = {
  start: 0, span: SPAN, cursor: 0, chosen: 0, scheme: "",
  order: every(run.signals), folded: foldedAtFirst(run.signals), search: "",
};
let values = null, rows = [], told = [], colours = {};

// Drawing. All drawing is of the instants from state.start on, state.span of them over the width.
const pixels = (name) => parseFloat(getComputedStyle(document.documentElement).getPropertyValue(name));
const namesWidth = () => parseFloat(getComputedStyle(byId("lanes")).marginLeft) + pixels("--gutter");
const width = () => Math.max(byId("body").clientWidth - namesWidth(), 80);

function coloursNow() {
  const style = getComputedStyle(document.documentElement);
  return Object.fromEntries(COLOURS.map((name) => [name, style.getPropertyValue(`--${name}`).trim()]));
}

// A pen for a canvas that has this size, cleared.
function penOf(canvas, height) {
  const scale = window.devicePixelRatio || 1, context = canvas.getContext("2d"), gutter = pixels("--gutter"), whole = width() + gutter;
  if (canvas.width !== Math.round(whole * scale) || canvas.height !== Math.round(height * scale)) {
    canvas.width = Math.round(whole * scale);
    canvas.height = Math.round(height * scale);
    canvas.style.width = `${whole}px`;
    canvas.style.height = `${height}px`;
  }
  context.setTransform(scale, 0, 0, scale, gutter * scale, 0);
  context.clearRect(-gutter, 0, whole, height);
  context.font = FONT;
  return { context, values, colours, width: width(), gutter, start: state.start, span: state.span, letter: context.measureText("0").width };
}

function draw() {
  state.span = limited(state.span, LEAST_SPAN, Math.max(run.count, LEAST_SPAN));
  state.start = begun(state.start, state.span, run.count);
  const scroll = byId("scroll");
  scroll.max = Math.max(0, run.count - state.span);
  scroll.value = state.start;
  if (document.activeElement !== byId("instant")) byId("instant").value = state.cursor + run.first;
  drawAxis(penOf(byId("axis").firstElementChild, AXIS), AXIS, state.cursor);
  drawLanes();
  byId("reading").textContent = readingOf(state.chosen);
}

// The lanes of the rows that are in view.
function drawLanes() {
  const body = byId("body"), canvas = byId("lanes"), height = body.clientHeight, pen = penOf(canvas, height);
  canvas.style.marginBottom = `${-height}px`;
  for (const element of byId("rows").children) {
    const top = element.offsetTop - body.scrollTop, row = rows[element.dataset.row];
    if (top > height || top + element.offsetHeight < 0 || row.signal === undefined) continue;
    drawLane(pen, row.signal, { top, height: element.offsetHeight - 1 });
    const value = element.querySelector(".value");
    value.textContent = value.title = values.textAt(row.signal, state.cursor);
    element.classList.toggle("chosen", row.signal === state.chosen);
  }
  drawMark(pen, state.cursor, height, "fault", [3, 2]);
}

let isDue = false;
function drawSoon() {
  if (isDue) return;
  isDue = true;
  requestAnimationFrame(() => {
    isDue = false;
    draw();
    keepSoon();
  });
}

// The rows of the waveform.
function element(tag, className, text = "") {
  const made = document.createElement(tag);
  made.className = className;
  made.textContent = text;
  return made;
}

function headOf({ path, members, isFolded }, number) {
  const made = element("div", "row head");
  made.dataset.row = number;
  made.dataset.path = path;
  made.title = `the copy ${path}: ${isFolded ? "show" : "fold"} its signals`;
  made.tabIndex = 0;
  made.append(element("span", "grip"), element("span", "name", `${isFolded ? "\u25b8" : "\u25be"} ${path} (${members.length})`));
  return made;
}

function rowOf({ signal, isBelow }, number) {
  const it = run.signals[signal], made = element("div", `row ${it.kind}${isBelow ? " below" : ""}`), name = element("span", "name");
  made.dataset.row = number;
  made.dataset.signal = signal;
  made.dataset.signals = signal;
  made.title = `${it.name}: ${it.kind}, ${it.role}, ${run.clocks[it.clock]}`;
  name.append(element("small", "", it.path && !isBelow ? `${it.path}.` : ""), element("span", "", it.own));
  const hide = element("button", "hide", "\u00d7");
  hide.title = `hide ${it.name}`;
  const grip = element("span", "grip", "\u2807");
  grip.title = "drag to another place (Alt with an arrow)";
  made.append(grip, name, element("span", "value"), hide, element("span", "lane"));
  return made;
}

// How many letters the name of a row has.
function lengthOf({ signal, isBelow, path, members }) {
  if (path !== undefined) return path.length + String(members.length).length + 5;
  const it = run.signals[signal];
  return isBelow || !it.path ? it.own.length + 2 * isBelow : it.name.length;
}

function layRows() {
  rows = rowsOf(state, run.signals);
  document.documentElement.style.setProperty("--name", `${limited(LETTER * Math.max(0, ...rows.map(lengthOf)) + 24, 90, 240)}px`);
  byId("rows").replaceChildren(...rows.map((row, number) => (row.path === undefined ? rowOf(row, number) : headOf(row, number))));
  byId("note").textContent = `${note}${state.order.length < run.signals.length ? `, ${state.order.length} of ${run.signals.length} signals` : ""}`;
  byId("sort").value = sortOf(state.order, run.signals);
  drawSoon();
}

function fold(path) {
  if (!state.folded.delete(path)) state.folded.add(path);
  layRows();
}

// Shows these signals in this order.
function pick(order) {
  state.order = order;
  layRows();
  layPicks();
}

// Moves the chosen signal by one of the rows in view.
function shift(step) {
  const shown = rows.filter((it) => it.signal !== undefined).map((it) => it.signal), other = shown[shown.indexOf(state.chosen) + step];
  if (other === undefined) return;
  pick(step > 0 ? moved(state.order, other, state.chosen) : moved(state.order, state.chosen, other));
}

function choose(signal) {
  state.chosen = signal;
  drawSoon();
}

function chooseBy(step) {
  const shown = rows.filter((it) => it.signal !== undefined).map((it) => it.signal), next = shown[shown.indexOf(state.chosen) + step];
  if (next === undefined) return;
  choose(next);
  document.querySelector(`.row[data-signal="${next}"]`).scrollIntoView({ block: "nearest" });
  point([next]);
}

// The list from which signals are picked, those of a copy together.
function layPicks() {
  const all = byId("picks"), shown = new Set(state.order), buttons = element("div", "group");
  for (const [text, signals] of [["all", every(run.signals)], ["none", []], ["inputs, outputs", every(run.signals).filter((it) => run.signals[it].role !== "local" && !run.signals[it].path)]]) {
    const button = element("button", "", text);
    button.addEventListener("click", () => pick(signals));
    buttons.append(button);
  }
  for (const [text, folded] of [["fold", new Set(run.signals.map((it) => it.path).filter(Boolean))], ["unfold", new Set()]]) {
    const button = element("button", "", text);
    button.addEventListener("click", () => ((state.folded = folded), layRows()));
    buttons.append(button);
  }
  all.replaceChildren(buttons);
  for (const { path, members } of runsOf(every(run.signals), run.signals)) {
    if (path) all.append(pickOf(path, members, shown, "copy"));
    all.append(...members.map((it) => pickOf(run.signals[it].own, [it], shown, path ? "inner" : "")));
  }
}

function pickOf(text, members, shown, className) {
  const label = element("label", className), box = document.createElement("input"), count = members.filter((it) => shown.has(it)).length;
  box.type = "checkbox";
  box.checked = count === members.length;
  box.indeterminate = count > 0 && count < members.length;
  box.addEventListener("change", () => pick(box.checked ? withThese(members) : state.order.filter((it) => !members.includes(it))));
  label.append(box, ` ${text}`);
  return label;
}

// The order with some more signals: where no other stands before its own place they stand as declared.
function withThese(members) {
  const isAsDeclared = state.order.every((it, at) => at === 0 || state.order[at - 1] < it), order = [...state.order, ...members.filter((it) => !state.order.includes(it))];
  return isAsDeclared ? order.sort((a, b) => a - b) : order;
}

// What is shown of a signal where the pointer is.
const elementsOf = new Map();

function remember(element, signals) {
  for (const it of signals) elementsOf.set(it, [...(elementsOf.get(it) || []), element]);
}

function tell(signals) {
  told = signals;
  const more = signals.length > MOST_TOLD ? `\n\nand ${signals.length - MOST_TOLD} more` : "";
  byId("told").textContent = signals.slice(0, MOST_TOLD).map(sentenceOf).join("\n\n") + more;
}

function valueNow(signal, instant) {
  return `${values.textAt(signal, instant) || "absent"} at instant ${instant + run.first}`;
}

function presenceOf(signal) {
  const it = run.signals[signal];
  return `${run.clocks[it.clock] || "its clock"}; ${it.packed.count} of ${run.count} instants`;
}

function sentenceOf(signal) {
  const it = run.signals[signal];
  return `${it.name}: ${it.kind}, ${it.role}; ${valueNow(signal, state.cursor)}\n${presenceOf(signal)}${it.equations.map((text) => `\n${text}`).join("")}`;
}

const readingOf = (signal) => (run.count ? `${run.signals[signal].name}: ${valueNow(signal, state.cursor)}; ${presenceOf(signal)}` : "");

function point(signals) {
  for (const it of document.querySelectorAll(".pointed")) it.classList.remove("pointed");
  for (const it of signals) {
    for (const element of elementsOf.get(it) || []) element.classList.add("pointed");
    for (const element of document.querySelectorAll(`.row[data-signal="${it}"]`)) element.classList.add("pointed");
    byId(`clock-${run.signals[it].clock}`)?.classList.add("pointed");
  }
  if (signals.length) tell(signals);
}

function signalsAt(target) {
  const element = target.closest("[data-signals]");
  return element ? element.dataset.signals.split(" ").map(Number) : [];
}
