// Which rows the waveform has: picked, ordered, folded by copy and searched; and how the address of the page keeps that.
const LEAST_SPAN = 4, FIRST_SPAN = 60, MOST_OPEN = 40;
const SORTS = {
  declared: () => 0,
  name: (a, b) => a.own.localeCompare(b.own),
  clock: (a, b) => a.clock - b.clock,
  role: (a, b) => ROLES.indexOf(a.role) - ROLES.indexOf(b.role),
  kind: (a, b) => KINDS.indexOf(a.kind) - KINDS.indexOf(b.kind),
};
const ROLES = ["input", "output", "local"], KINDS = ["event", "boolean", "integer"];

const limited = (value, least, most) => Math.max(least, Math.min(value, most));
const every = (signals) => signals.map((_, number) => number);
const isSame = (one, other) => one.length === other.length && one.every((it, at) => it === other[at]);

const sortedBy = (by, order, signals) => [...order].sort((a, b) => SORTS[by](signals[a], signals[b]) || a - b);
const sortOf = (order, signals) => Object.keys(SORTS).find((by) => isSame(sortedBy(by, order, signals), order)) || "own";

// Signals that follow one another and belong to the same copy: a path, and numbers.
function runsOf(order, signals) {
  const runs = [];
  for (const it of order) {
    const last = runs[runs.length - 1], { path } = signals[it];
    if (last && last.path === path) last.members.push(it);
    else runs.push({ path, members: [it] });
  }
  return runs;
}

// The copies that are folded at first: of a large program all.
function foldedAtFirst(signals) {
  return new Set(signals.length > MOST_OPEN ? signals.map((it) => it.path).filter(Boolean) : []);
}

const isFound = (signal, search) => signal.name.toLowerCase().includes(search) || signal.path.toLowerCase().includes(search);

// Whether a copy is inside one that is folded, whose head is there.
const isInFolded = (path, folded, heads) => path.split("/").some((_, at, names) => at > 0 && folded.has(names.slice(0, at).join("/")) && heads.has(names.slice(0, at).join("/")));

// The rows: a head for each copy with several signals in a row, and below it these, unless it is folded.
function rowsOf({ order, folded, search }, signals) {
  const asked = search.trim().toLowerCase(), rows = [], runs = runsOf(order.filter((it) => isFound(signals[it], asked)), signals);
  const heads = new Set(asked ? [] : runs.map((it) => it.path));
  for (const { path, members } of runs) {
    if (isInFolded(path, folded, heads)) continue;
    const hasHead = path !== "" && (members.length > 1 || folded.has(path)), isFolded = hasHead && !asked && folded.has(path);
    if (hasHead) rows.push({ path, members, isFolded });
    if (!isFolded) rows.push(...members.map((signal) => ({ signal, isBelow: hasHead })));
  }
  return rows;
}

// An order in which a signal stands where another one stood.
function moved(order, signal, other) {
  const to = order.indexOf(other), rest = order.filter((it) => it !== signal);
  return to < 0 || signal === other ? order : [...rest.slice(0, to), signal, ...rest.slice(to)];
}

// The instants that are shown once they are a factor as many. The pivot keeps its place on the screen, and the cursor
// stays in view; without a pivot it is the cursor.
function zoomed({ start, span, cursor }, count, factor, pivot = cursor + 0.5) {
  const isSeen = cursor >= start && cursor < start + span, next = limited(span * factor, LEAST_SPAN, Math.max(count, LEAST_SPAN));
  const share = pivot >= start && pivot <= start + span ? (pivot - start) / span : 0.5;
  const wanted = pivot - share * next;
  return { start: begun(isSeen ? limited(wanted, cursor + 1 - next, cursor) : wanted, next, count), span: next };
}

const begun = (start, span, count) => limited(start, 0, Math.max(count - span, 0));

// The least of 1, 2, 5, 10, 20, .. instants whose marks stand at least so many pixels apart.
function stepOfAxis(span, width, apart) {
  let step = 1;
  for (let at = 0; (step * width) / span < apart; at++) step *= at % 3 === 1 ? 2.5 : 2;
  return step;
}

// What an address asks for, as #signal=HEATING&instant=3&span=20&signals=A,B&folded=TIMER%231&closed=program&scheme=dark.
function askedOf(hash) {
  const asked = Object.fromEntries(hash.replace(/^#/, "").split("&").filter(Boolean).map((it) => [it.split("=")[0], it.slice(it.indexOf("=") + 1).replace(/\+/g, " ")]));
  const list = (key) => (asked[key] === undefined ? null : asked[key].split(",").filter(Boolean).map(decoded));
  const number = (key) => (/^\d+$/.test(asked[key] || "") ? Number(asked[key]) : null);
  const text = (key) => decoded(asked[key] || "");
  return {
    signal: text("signal"), instant: number("instant"), from: number("from"), span: number("span"), search: text("search"),
    signals: list("signals"), folded: list("folded"), closed: list("closed"), scheme: text("scheme"),
  };
}

function decoded(text) {
  try {
    return decodeURIComponent(text);
  } catch {
    return text;
  }
}

// The address that asks for what is there; null and empty texts are left out.
function addressOf(asked) {
  const written = (it) => (Array.isArray(it) ? it.map(encodeURIComponent).join(",") : encodeURIComponent(it));
  const parts = Object.entries(asked).filter(([, it]) => it !== null && it !== "");
  return parts.map(([key, it]) => `${key}=${written(it)}`).join("&");
}
