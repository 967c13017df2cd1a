// Drawing the lanes of signals on a canvas. A pen has the context of the canvas, the width of the lanes and of the gutter
// at their left, the colours, the instants that are shown (start, span) and the values; a lane has its top and its height.
const ROOM = 5, SLOPE = 4, FONT = "11px ui-monospace, 'DejaVu Sans Mono', Menlo, Consolas, monospace";

const xOf = (pen, instant) => ((instant - pen.start) * pen.width) / pen.span;
const shownInstants = (pen) => [Math.max(0, Math.floor(pen.start)), Math.min(pen.values.run.count, Math.ceil(pen.start + pen.span))];
const widthOf = (pen, text) => text.length * pen.letter;
// Where a pixel has more than one instant, what it shows is summed up.
const isDense = (pen) => pen.span > pen.width;

// The colours of a lane from one text to the next.
function stroked(pen, colour, path, { width = 1.5, dash = [], alpha = 1 } = {}) {
  const { context } = pen;
  context.globalAlpha = alpha;
  context.strokeStyle = pen.colours[colour];
  context.lineWidth = width;
  context.setLineDash(dash);
  context.stroke(path);
  context.globalAlpha = 1;
}

function filled(pen, colour, path, alpha = 1) {
  pen.context.globalAlpha = alpha;
  pen.context.fillStyle = pen.colours[colour];
  pen.context.fill(path);
  pen.context.globalAlpha = 1;
}

function written(pen, text, x, y, { align = "center", colour = "fore", back = "" } = {}) {
  const { context } = pen, width = widthOf(pen, text);
  context.textAlign = align;
  context.textBaseline = "middle";
  if (back) {
    context.fillStyle = pen.colours[back];
    context.fillRect((align === "left" ? x : x - width / 2) - 1, y - 6, width + 2, 12);
  }
  context.fillStyle = pen.colours[colour];
  context.fillText(text, x, y);
}

const absentLine = (pen, path) => stroked(pen, "line", path, { width: 1, dash: [2, 4] });

// The instants of each pixel: calls `each` with the pixel, the first instant and the one behind the last.
function eachPixel(pen, each) {
  const [begin, end] = shownInstants(pen), step = pen.span / pen.width;
  for (let x = Math.floor(xOf(pen, begin)), at = begin; x < pen.width && at < end; x++) {
    const next = Math.min(end, Math.max(at, Math.floor(pen.start + (x + 1) * step)));
    if (next > at) each(x, at, next);
    at = next;
  }
}

// Booleans: a line at the top or at the bottom.
function drawBoolean(pen, signal, lane) {
  if (isDense(pen)) return drawDenseBoolean(pen, signal, lane);
  const line = new Path2D(), gaps = new Path2D(), fill = new Path2D(), top = lane.top + ROOM, bottom = lane.top + lane.height - ROOM;
  let before = null;
  for (const [begin, end, value] of pen.values.stretches(signal, ...shownInstants(pen))) {
    const left = xOf(pen, begin), right = xOf(pen, end), y = value ? top : bottom;
    if (value === undefined) lineOf(gaps, left, right, (top + bottom) / 2);
    else if (before === null) lineOf(line, left, right, y);
    else line.lineTo(left, y), line.lineTo(right, y);
    if (value) fill.rect(left, top, right - left, bottom - top);
    before = value === undefined ? null : y;
  }
  filled(pen, "box", fill);
  absentLine(pen, gaps);
  stroked(pen, "wave", line);
}

function lineOf(path, left, right, y) {
  path.moveTo(left, y);
  path.lineTo(right, y);
}

// Of many instants in a pixel: a line where they are alike, and else a bar as high as the share of those that are true.
function drawDenseBoolean(pen, signal, lane) {
  const { values } = pen.values.column(signal), top = lane.top + ROOM, bottom = lane.top + lane.height - ROOM, height = bottom - top;
  const line = new Path2D(), mixed = new Path2D(), share = new Path2D();
  let before = null;
  eachPixel(pen, (x, begin, end) => {
    const [from, to] = pen.values.places(signal, begin, end), part = from === to ? null : sumOf(values, from, to) / (to - from);
    if (part > 0 && part < 1) {
      mixed.rect(x, top, 1, height);
      share.rect(x, bottom - Math.max(1, height * part), 1, Math.max(1, height * part));
    } else if (part !== null) line.rect(x, part ? top - 0.75 : bottom - 0.75, 1, 1.5);
    if (part !== null && before !== null && part + before === 1 && part !== before) line.rect(x, top, 1, height);
    before = part;
  });
  filled(pen, "wave", mixed, 0.2);
  filled(pen, "wave", share, 0.7);
  filled(pen, "wave", line);
}

function sumOf(values, from, to) {
  let sum = 0;
  for (let at = from; at < to; at++) sum += values[at];
  return sum;
}

// Events: an arrow at each instant at which they happen; of many instants in a pixel a bar, the fuller the more.
function drawEvent(pen, signal, lane) {
  const top = lane.top + ROOM, bottom = lane.top + lane.height - ROOM, step = pen.width / pen.span;
  if (step < 3) return drawDenseEvent(pen, signal, top, bottom);
  const path = new Path2D(), tip = Math.min(SLOPE, step / 3), [first, last] = shownInstants(pen);
  for (let at = first; at < last; at++) {
    if (pen.values.at(signal, at) === undefined) continue;
    const x = xOf(pen, at + 0.5);
    path.moveTo(x, bottom);
    path.lineTo(x, top);
    path.moveTo(x - tip, top + tip);
    path.lineTo(x, top);
    path.lineTo(x + tip, top + tip);
  }
  absentLine(pen, baseOf(pen, bottom));
  stroked(pen, "event", path);
}

function baseOf(pen, y) {
  const [first, last] = shownInstants(pen), path = new Path2D();
  lineOf(path, xOf(pen, first), xOf(pen, last), y);
  return path;
}

function drawDenseEvent(pen, signal, top, bottom) {
  const shares = [0.3, 0.55, 0.8, 1].map(() => new Path2D());
  eachPixel(pen, (x, begin, end) => {
    const [from, to] = pen.values.places(signal, begin, end);
    if (to > from) shares[Math.min(3, Math.floor((4 * (to - from)) / (end - begin)))].rect(x, top, 1, bottom - top);
  });
  absentLine(pen, baseOf(pen, bottom));
  shares.forEach((path, at) => filled(pen, "event", path, 0.4 + 0.2 * at));
}

// Integers: boxes with their values where most of these have room, and else a curve of steps, whose scale it returns.
function drawInteger(pen, signal, lane) {
  if (isDense(pen)) return drawDenseCurve(pen, signal, lane);
  const parts = pen.values.stretches(signal, ...shownInstants(pen)).map(([begin, end, value]) => partOf(pen, signal, begin, end, value));
  return areRoomy(pen, parts) ? drawBoxes(pen, parts, lane) : drawCurve(pen, signal, parts, lane);
}

function partOf(pen, signal, begin, end, value) {
  const left = Math.max(xOf(pen, begin), -SLOPE), right = Math.min(xOf(pen, end), pen.width + SLOPE);
  return { left, right, value, begin, end, text: pen.values.text(signal, value) };
}

// A value as it stands in a box: a number of many digits in short where it has no room.
function inBox(pen, part) {
  if (hasRoom(pen, part) || Math.abs(Number(part.value)) < 1e6) return part;
  return { ...part, text: `~${Number(part.value).toExponential(1).replace("e+", "e")}` };
}

const hasRoom = (pen, { left, right, text }) => right - left >= widthOf(pen, text) + 2 * SLOPE;

// Whether the stretches with room for their values take most of the width.
function areRoomy(pen, parts) {
  const there = parts.filter((it) => it.value !== undefined), width = (list) => list.reduce((sum, it) => sum + it.right - it.left, 0);
  return width(there.filter((it) => hasRoom(pen, it))) >= 0.6 * width(there);
}

function drawBoxes(pen, parts, lane) {
  const top = lane.top + ROOM, bottom = lane.top + lane.height - ROOM, middle = (top + bottom) / 2, boxes = new Path2D(), gaps = new Path2D();
  for (const { left, right, value } of parts) {
    const slope = Math.min(SLOPE, (right - left) / 2);
    if (value === undefined) lineOf(gaps, left, right, middle);
    else polygon(boxes, [[left, middle], [left + slope, top], [right - slope, top], [right, middle], [right - slope, bottom], [left + slope, bottom]]);
  }
  filled(pen, "box", boxes);
  stroked(pen, "wave", boxes, { width: 1 });
  absentLine(pen, gaps);
  const texts = parts.filter((it) => it.value !== undefined).map((it) => inBox(pen, it));
  for (const it of texts) if (hasRoom(pen, it)) written(pen, it.text, (Math.max(it.left, 0) + Math.min(it.right, pen.width)) / 2, middle);
}

function polygon(path, points) {
  points.forEach(([x, y], at) => (at ? path.lineTo(x, y) : path.moveTo(x, y)));
  path.closePath();
}

// The scale of a curve: from a number to its height, with the place of the least and of the greatest value.
function scaleOf(pen, signal, lane) {
  const range = pen.values.range(signal, ...shownInstants(pen)), { numbers, values } = pen.values.column(signal);
  if (!range) return null;
  const least = numbers[range.least], most = numbers[range.most], top = lane.top + ROOM + 1, bottom = lane.top + lane.height - ROOM - 1;
  const height = (value) => (most === least ? (top + bottom) / 2 : bottom - ((bottom - top) * (value - least)) / (most - least));
  return { height, top, bottom, least: pen.values.text(signal, values[range.least]), most: pen.values.text(signal, values[range.most]) };
}

// What the least and the greatest of the shown values are, at the left of a curve, in the gutter if they have room there.
function writeScale(pen, { least, most, top, bottom }) {
  const width = Math.max(widthOf(pen, least), widthOf(pen, most)), isOutside = width + 6 <= pen.gutter;
  const how = { align: isOutside ? "right" : "left", colour: "faint", back: isOutside ? "" : "panel" }, x = isOutside ? -5 : 3 - pen.gutter;
  if (least === most) return written(pen, most, x, (top + bottom) / 2, how);
  written(pen, most, x, top + 3, how);
  written(pen, least, x, bottom - 3, how);
}

function drawCurve(pen, signal, parts, lane) {
  const scale = scaleOf(pen, signal, lane), line = new Path2D(), gaps = new Path2D(), steps = new Path2D();
  if (!scale) return drawBoxes(pen, parts, lane);
  let before = null;
  for (const { left, right, value } of parts) {
    if (value === undefined) {
      lineOf(gaps, left, right, before === null ? (scale.top + scale.bottom) / 2 : before);
      continue;
    }
    const y = scale.height(Number(value));
    if (before !== null) steps.moveTo(left, before), steps.lineTo(left, y);
    lineOf(line, left, right, y);
    before = y;
  }
  absentLine(pen, gaps);
  stroked(pen, "wave", steps, { width: 1, alpha: 0.7 });
  stroked(pen, "wave", line, { width: 1.75 });
  const begin = Math.max(widthOf(pen, scale.least), widthOf(pen, scale.most)) + 8 - pen.gutter;
  for (const it of parts) if (it.value !== undefined && it.left >= begin && hasRoom(pen, it)) writeBeside(pen, it, scale);
  return scale;
}

// The value of a stretch of a curve, above its line or below it, where the lane has more room.
function writeBeside(pen, { left, right, value, text }, scale) {
  const y = scale.height(Number(value)), isLow = y > (scale.top + scale.bottom) / 2;
  written(pen, text, (Math.max(left, 0) + Math.min(right, pen.width)) / 2, isLow ? y - 8 : y + 8);
}

// Of many instants in a pixel: a bar from the least value there to the greatest, and a line over the means.
function drawDenseCurve(pen, signal, lane) {
  const scale = scaleOf(pen, signal, lane), line = new Path2D(), gaps = new Path2D(), bars = new Path2D(), { numbers } = pen.values.column(signal);
  if (!scale) return null;
  let before = null, isGap = false;
  eachPixel(pen, (x, begin, end) => {
    const range = pen.values.range(signal, begin, end);
    if (!range) {
      isGap = before !== null;
      if (isGap) lineOf(gaps, x, x + 1, before);
      return;
    }
    const top = scale.height(numbers[range.most]), bottom = scale.height(numbers[range.least]), mean = scale.height(sumOf(numbers, range.from, range.to) / (range.to - range.from));
    bars.rect(x, top - 0.5, 1, bottom - top + 1);
    if (before === null) line.moveTo(x, mean);
    else if (isGap) line.moveTo(x + 0.5, before);
    line.lineTo(x + 0.5, mean);
    line.lineTo(x + 1, mean);
    [before, isGap] = [mean, false];
  });
  stroked(pen, "line", gaps, { width: 1 });
  filled(pen, "wave", bars, 0.4);
  stroked(pen, "wave", line, { width: 1.25 });
  return scale;
}

const DRAWERS = { integer: drawInteger, boolean: drawBoolean, event: drawEvent };

function drawLane(pen, signal, lane) {
  pen.context.save();
  pen.context.beginPath();
  pen.context.rect(0, lane.top, pen.width, lane.height);
  pen.context.clip();
  pen.context.font = FONT;
  const scale = DRAWERS[pen.values.run.signals[signal].kind](pen, signal, lane);
  pen.context.restore();
  if (scale) writeScale(pen, scale);
}

// A line over all lanes at the middle of an instant.
function drawMark(pen, instant, height, colour, dash) {
  const x = xOf(pen, instant + 0.5), path = new Path2D();
  if (x < 0 || x > pen.width) return;
  path.moveTo(x, 0);
  path.lineTo(x, height);
  stroked(pen, colour, path, { width: 1, dash });
}

// The numbers of instants above the lanes, and the cursor's in a box.
function drawAxis(pen, height, cursor) {
  const { first } = pen.values.run, step = stepOfAxis(pen.span, pen.width, 64), ticks = new Path2D(), [begin, end] = shownInstants(pen);
  pen.context.font = FONT;
  const own = xOf(pen, cursor + 0.5), reach = widthOf(pen, String(cursor + first)) / 2 + 4;
  for (let at = Math.ceil((begin + first) / step) * step - first; at < end; at += step) {
    const x = xOf(pen, at + 0.5), text = String(at + first), half = widthOf(pen, text) / 2;
    ticks.moveTo(x, height - 6);
    ticks.lineTo(x, height);
    if (Math.abs(x - own) > half + reach + 2) written(pen, text, limited(x, half, pen.width - half), height - 14, { colour: "faint" });
  }
  stroked(pen, "line", ticks, { width: 1 });
  if (own < 0 || own > pen.width) return;
  drawMark(pen, cursor, height, "fault", []);
  written(pen, String(cursor + first), limited(own, reach, pen.width - reach), height - 14, { colour: "fault", back: "panel" });
}
