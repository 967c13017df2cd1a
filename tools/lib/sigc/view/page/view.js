// The page as it opens: its colours, and the address, which asks for what is shown and keeps it.
function colour() {
  takeScheme(state.scheme);
  colours = coloursNow();
  drawSoon();
}

const panels = () => [...document.querySelectorAll("details.panel")];
const isPhone = () => matchMedia("(max-width: 800px)").matches;
const closedAtFirst = () => (isPhone() ? CLOSED_ON_PHONES : []);
const isSameSet = (one, other) => isSame([...one].sort(), [...other].sort());

function addressNow() {
  const closed = panels().filter((it) => !it.open).map((it) => it.id), folded = [...state.folded], first = [...foldedAtFirst(run.signals)];
  return addressOf({
    signal: state.chosen ? run.signals[state.chosen].name : null, instant: state.cursor ? state.cursor + run.first : null,
    from: Math.floor(state.start) > 0 ? Math.floor(state.start) + run.first : null, span: state.span === SPAN ? null : Math.round(state.span),
    search: state.search, signals: isSame(state.order, every(run.signals)) ? null : state.order.map((it) => run.signals[it].name),
    folded: isSameSet(folded, first) ? null : folded, closed: isSameSet(closed, closedAtFirst()) ? null : closed, scheme: state.scheme,
  });
}

let kept = null;
function keepSoon() {
  clearTimeout(kept);
  kept = setTimeout(() => history.replaceState(null, "", addressNow() ? `#${addressNow()}` : location.pathname + location.search), 250);
}

function follow() {
  const asked = askedOf(location.hash), number = (name) => run.signals.findIndex((it) => it.name === name), signal = number(asked.signal);
  state.scheme = ["dark", "light"].includes(asked.scheme) ? asked.scheme : "";
  state.search = byId("search").value = asked.search;
  const picked = (asked.signals || []).map(number).filter((it) => it >= 0);
  state.order = picked.length || asked.signals?.length === 0 ? picked : every(run.signals);
  state.folded = asked.folded ? new Set(asked.folded) : foldedAtFirst(run.signals);
  for (const it of panels()) it.open = !(asked.closed || closedAtFirst()).includes(it.id);
  state.span = limited(asked.span || SPAN, LEAST_SPAN, Math.max(run.count, LEAST_SPAN));
  state.start = begun((asked.from || run.first) - run.first, state.span, run.count);
  state.chosen = Math.max(signal, 0);
  state.cursor = asked.instant !== null ? limited(asked.instant - run.first, 0, Math.max(run.count - 1, 0)) : Math.floor(state.start);
  if (asked.from === null) goTo(state.cursor);
  layRows();
  layPicks();
  colour();
  tell([state.chosen]);
  if (signal >= 0) point([signal]);
}

// Scrolls the program to the place at which the run ended.
function showPlace() {
  const place = byId("place"), pre = document.querySelector("pre");
  if (place) pre.scrollTop = place.offsetTop - pre.offsetTop - pre.clientHeight / 2;
}

async function opened() {
  values = new Values(run, await inflated(bytesOf(byId("packed").textContent)));
  for (const it of document.querySelectorAll("[data-signals]")) remember(it, it.dataset.signals.split(" ").map(Number));
  follow();
  listen();
  showPlace();
  draw();
  document.body.dataset.drawn = Math.round(performance.now());
}

const ready = opened();
