"use strict";
// The values of a run, unpacked where they are first asked for. An instant counts from 0 here.

function bytesOf(text) {
  const letters = atob(text.trim()), bytes = new Uint8Array(letters.length);
  for (let at = 0; at < letters.length; at++) bytes[at] = letters.charCodeAt(at);
  return bytes;
}

async function inflated(bytes) {
  const stream = new Blob([bytes]).stream().pipeThrough(new DecompressionStream("deflate-raw"));
  return new Uint8Array(await new Response(stream).arrayBuffer());
}

function bitsAt(bytes, at, count) {
  const bits = new Uint8Array(count);
  for (let it = 0; it < count; it++) bits[it] = (bytes[at + (it >> 3)] >> (7 - (it & 7))) & 1;
  return bits;
}

// How many bits are 1 before each place.
function countsBefore(bits) {
  const counts = new Int32Array(bits.length + 1);
  for (let at = 0; at < bits.length; at++) counts[at + 1] = counts[at] + bits[at];
  return counts;
}

// Integers of a few bytes each, the lowest bytes of all of them first, as view/packing.py lays them.
function laidIntegers(bytes, at, count, width) {
  const found = Float64Array.from(new Int8Array(bytes.buffer, bytes.byteOffset + at + (width - 1) * count, count));
  for (let plane = width - 2; plane >= 0; plane--) {
    for (let it = 0, from = at + plane * count; it < count; it++) found[it] = found[it] * 256 + bytes[from + it];
  }
  return found;
}

// The same where they may have more digits than a number of the page.
function wideIntegers(bytes, at, count, width) {
  const found = new BigInt64Array(count);
  for (let it = 0; it < count; it++) {
    let value = 0n;
    for (let plane = width - 1; plane >= 0; plane--) value = value * 256n + BigInt(bytes[at + plane * count + it]);
    found[it] = BigInt.asIntN(8 * width, value);
  }
  return found;
}

// Values from their differences to the first one, or each to the one before it.
function summed(differences, first, way) {
  if (way === "plain") return differences;
  for (let at = 0, before = first; at < differences.length; at++) {
    differences[at] += before;
    if (way === "step") before = differences[at];
  }
  return differences;
}

class Values {
  constructor(run, bytes) {
    this.run = run;
    this.bytes = bytes;
    this.columns = [];
    this.presences = new Map();
  }

  // For each instant how many before it have the signal; null where it is always present.
  presence(packed) {
    if (packed.there === undefined) return null;
    if (!this.presences.has(packed.there)) this.presences.set(packed.there, countsBefore(bitsAt(this.bytes, packed.there, this.run.count)));
    return this.presences.get(packed.there);
  }

  // The presence of a signal, and its values where it is present: bits, numbers, or BigInts of which `numbers` are near.
  column(signal) {
    if (!this.columns[signal]) {
      const { packed, kind } = this.run.signals[signal];
      const values = kind === "integer" ? this.integers(packed) : kind === "boolean" ? bitsAt(this.bytes, packed.at, packed.count) : null;
      this.columns[signal] = { before: this.presence(packed), values, numbers: packed.wide ? Float64Array.from(values, Number) : values };
    }
    return this.columns[signal];
  }

  integers(packed) {
    const first = packed.wide ? BigInt(packed.first) : Number(packed.first);
    if (packed.like !== undefined) return this.column(packed.like).values;
    if (packed.after !== undefined) {
      const found = this.column(packed.after).values, made = packed.wide ? new BigInt64Array(found.length) : new Float64Array(found.length);
      for (let at = 1; at < found.length; at++) made[at] = packed.wide ? BigInt(found[at - 1]) : Number(found[at - 1]);
      made[0] = first;
      return made;
    }
    const laid = packed.wide ? wideIntegers : laidIntegers;
    return summed(laid(this.bytes, packed.at, packed.count, packed.width), first, packed.way);
  }

  // The places among the values of a signal that stand for instants from begin on and before end.
  places(signal, begin, end) {
    const { before } = this.column(signal);
    return before ? [before[begin], before[end]] : [begin, end];
  }

  // The value of a signal at an instant: 0 or 1 of a boolean, 1 of an event; undefined where it is absent.
  at(signal, instant) {
    if (instant < 0 || instant >= this.run.count) return undefined;
    const [place, next] = this.places(signal, instant, instant + 1), { values } = this.column(signal);
    return place === next ? undefined : values ? values[place] : 1;
  }

  // A value as a text; a state has its name.
  text(signal, value) {
    const { kind, states = [] } = this.run.signals[signal];
    if (value === undefined) return "";
    return kind === "integer" ? states[value] || String(value) : value ? "true" : "false";
  }

  textAt(signal, instant) {
    return this.text(signal, this.at(signal, instant));
  }

  // The stretches of equal values from begin on and before end: [begin, end, value].
  stretches(signal, begin, end) {
    const found = [];
    for (let at = begin; at < end; at++) {
      const value = this.at(signal, at), last = found[found.length - 1];
      if (last && last[2] === value) last[1] = at + 1;
      else found.push([at, at + 1, value]);
    }
    return found;
  }

  // The nearest instant before or behind one at which an event happens, or another value begins; -1 where there is none.
  change(signal, instant, step) {
    const isEvent = this.run.signals[signal].kind === "event";
    for (let at = instant + step; at >= 0 && at < this.run.count; at += step) {
      const value = this.at(signal, at);
      if (isEvent ? value !== undefined : at === 0 || value !== this.at(signal, at - 1)) return at;
    }
    return -1;
  }

  // The places of the least and of the greatest value at some instants, among those from `from` on and before `to`; null
  // where there is none.
  range(signal, begin, end) {
    const [from, to] = this.places(signal, begin, end), { numbers } = this.column(signal);
    if (from === to) return null;
    let least = from, most = from;
    for (let at = from + 1; at < to; at++) {
      if (numbers[at] < numbers[least]) least = at;
      else if (numbers[at] > numbers[most]) most = at;
    }
    return { least, most, from, to };
  }
}
