// What a user does with the page, by the pointer, the keys and the buttons.
function zoom(factor, pivot) {
  Object.assign(state, zoomed(state, run.count, factor, pivot));
  drawSoon();
}

function goTo(instant) {
  if (!Number.isInteger(instant)) return;
  state.cursor = limited(instant, 0, Math.max(run.count - 1, 0));
  if (state.cursor < state.start || state.cursor >= state.start + state.span) state.start = state.cursor - state.span / 2;
  tell(told);
  drawSoon();
}

function goToChange(step) {
  const at = values.change(state.chosen, state.cursor, step);
  if (at >= 0) goTo(at);
}

function instantAt(clientX) {
  const left = byId("axis").firstElementChild.getBoundingClientRect().left + pixels("--gutter");
  return state.start + ((clientX - left) * state.span) / width();
}

// The value under the pointer, beside it.
function showTip(event) {
  const tip = byId("tip"), row = event.target.closest(".row"), instant = Math.floor(instantAt(event.clientX));
  tip.hidden = !event.target.closest(".lane") || !row.dataset.signal || instant < 0 || instant >= run.count || event.pointerType === "touch";
  if (tip.hidden) return;
  tip.textContent = valueNow(Number(row.dataset.signal), instant);
  tip.style.left = `${limited(event.clientX + 12, 0, window.innerWidth - tip.offsetWidth - 8)}px`;
  tip.style.top = `${Math.max(event.clientY - 30, 4)}px`;
}

// What the user does with the pointer: a click on a lane sets the cursor, dragging moves the instants, dragging a grip moves a row.
let drag = null;

function pressed(event) {
  const row = event.target.closest(".row");
  if (event.target.closest(".grip") && row?.dataset.signal) drag = { row, signal: Number(row.dataset.signal) };
  else if (event.target.closest(".lane") && event.button === 0) drag = { x: event.clientX, start: state.start, isMoved: false };
}

function draggedTo(event) {
  showTip(event);
  if (!drag) return;
  if (drag.row) return dragRow(event);
  drag.isMoved ||= Math.abs(event.clientX - drag.x) > DRAG;
  if (!drag.isMoved) return;
  state.start = begun(drag.start - ((event.clientX - drag.x) * state.span) / width(), state.span, run.count);
  drawSoon();
}

function dragRow(event) {
  event.preventDefault();
  const other = document.elementFromPoint(event.clientX, event.clientY)?.closest(".row"), signal = other?.dataset.signal;
  drag.row.classList.add("dragged");
  drag.to = signal === undefined ? drag.to : Number(signal);
}

function released(event) {
  const it = drag;
  drag = null;
  if (it?.row) {
    it.row.classList.remove("dragged");
    if (it.to !== undefined && it.to !== it.signal) pick(moved(state.order, it.signal, it.to));
  } else if (it && !it.isMoved && event.type === "pointerup") goTo(Math.floor(instantAt(event.clientX)));
}

function clicked(event) {
  const row = event.target.closest(".row");
  if (!row) return;
  if (row.dataset.path !== undefined) fold(row.dataset.path);
  else if (event.target.closest(".hide")) pick(state.order.filter((it) => it !== Number(row.dataset.signal)));
  else choose(Number(row.dataset.signal));
}

function wheeled(event) {
  if (event.ctrlKey) zoom(event.deltaY > 0 ? 1.25 : 0.8, instantAt(event.clientX));
  else if (event.shiftKey || Math.abs(event.deltaX) > Math.abs(event.deltaY)) state.start = begun(state.start + ((event.deltaX || event.deltaY) * state.span) / width(), state.span, run.count);
  else return;
  event.preventDefault();
  drawSoon();
}

const KEYS = {
  "+": () => zoom(0.5), "-": () => zoom(2), p: () => goToChange(-1), n: () => goToChange(1),
  ArrowLeft: () => goTo(state.cursor - 1), ArrowRight: () => goTo(state.cursor + 1),
};
const KEYS_OF_ROWS = { ArrowUp: (event) => (event.altKey ? shift(-1) : chooseBy(-1)), ArrowDown: (event) => (event.altKey ? shift(1) : chooseBy(1)) };

function keyed(event) {
  if (["INPUT", "SELECT"].includes(event.target.tagName)) return;
  if (event.target.dataset.path !== undefined && ["Enter", " "].includes(event.key)) return foldBy(event);
  const key = KEYS[event.key] || (event.altKey || byId("body").contains(event.target) ? KEYS_OF_ROWS[event.key] : null);
  if (!key || event.ctrlKey || event.metaKey) return;
  event.preventDefault();
  key(event);
}

// Folds the copy whose head has the focus, which its new head then has.
function foldBy(event) {
  const { path } = event.target.dataset;
  event.preventDefault();
  fold(path);
  [...byId("rows").children].find((it) => it.dataset.path === path)?.focus();
}

function listen() {
  const on = (id, what, then, how) => byId(id).addEventListener(what, then, how);
  on("in", "click", () => zoom(0.5));
  on("out", "click", () => zoom(2));
  on("all", "click", () => zoom(run.count / state.span));
  on("before", "click", () => goToChange(-1));
  on("behind", "click", () => goToChange(1));
  on("search", "input", (event) => ((state.search = event.target.value), layRows()));
  on("sort", "change", (event) => pick(sortedBy(event.target.value, state.order, run.signals)));
  on("instant", "change", (event) => goTo(Number(event.target.value) - run.first));
  on("scroll", "input", (event) => ((state.start = Number(event.target.value)), drawSoon()));
  on("axis", "click", (event) => goTo(Math.floor(instantAt(event.clientX))));
  on("rows", "click", clicked);
  on("rows", "pointerdown", pressed);
  on("body", "scroll", drawSoon);
  on("waves", "wheel", wheeled, { passive: false });
  on("scheme", "click", () => ((state.scheme = document.documentElement.dataset.scheme === "dark" ? "light" : "dark"), colour()));
  listenEverywhere();
}

function listenEverywhere() {
  document.addEventListener("pointermove", draggedTo);
  document.addEventListener("pointerup", released);
  document.addEventListener("pointercancel", released);
  document.addEventListener("mouseover", (event) => point(signalsAt(event.target)));
  document.addEventListener("keydown", keyed);
  document.addEventListener("click", (event) => byId("picker").contains(event.target) || !event.target.isConnected || (byId("picker").open = false));
  for (const it of document.querySelectorAll("details")) it.addEventListener("toggle", drawSoon);
  new ResizeObserver(drawSoon).observe(byId("body"));
  window.addEventListener("hashchange", follow);
  matchMedia("(prefers-color-scheme: dark)").addEventListener("change", colour);
}
