"use strict";
// What tools/webpage.py has packed: columns of numbers, and tracks of what changes from line to line.

const ABSENT = -1; // what a number is that isn't there: place 0 of the great ones

/** The columns by their names, as bytes. Each is packed by itself. */
async function unpackedColumns(text) {
  const named = text.trim().split("\n").map(line => line.split(":"));
  const columns = await Promise.all(named.map(async ([name, packed]) => [name, await unpacked(packed)]));
  return Object.fromEntries(columns);
}

async function unpacked(text) {
  const packed = atob(text), bytes = new Uint8Array(packed.length);
  for (let i = 0; i < packed.length; i++) bytes[i] = packed.charCodeAt(i);
  const stream = new Blob([bytes]).stream().pipeThrough(new DecompressionStream("gzip"));
  return new Uint8Array(await new Response(stream).arrayBuffer());
}

const integers = bytes => new Uint32Array(bytes.buffer);
const numbers = bytes => new Float64Array(bytes.buffer);

/** Numbers that rise, which are packed as differences. */
function rising(bytes) {
  const all = integers(bytes);
  for (let i = 1; i < all.length; i++) all[i] += all[i - 1];
  return all;
}

/** The first place in rising numbers whose number isn't below this one. */
function placeOf(all, wanted, number = each => each) {
  let low = 0, high = all.length;
  while (low < high) {
    const middle = (low + high) >> 1;
    if (number(all[middle]) < wanted) low = middle + 1;
    else high = middle;
  }
  return low;
}

/** What changes from line to line, by words, keys or places: `now` has it after the line to which it was moved. */
class Track {
  constructor(columns, name) {
    this.line = rising(columns[`${name}.line`]);
    this.at = numbers(columns[`${name}.at`]);
    this.value = numbers(columns[`${name}.value`]);
    this.before = this.valuesBefore();
    this.done = 0;
    this.now = new Map();
  }

  /** What each change replaces. It isn't packed, since it can be read off the changes. */
  valuesBefore() {
    const before = new Float64Array(this.value.length), last = new Map();
    for (let i = 0; i < before.length; i++) {
      before[i] = last.get(this.at[i]) ?? ABSENT;
      last.set(this.at[i], this.value[i]);
    }
    return before;
  }

  moveTo(line) {
    while (this.done < this.line.length && this.line[this.done] <= line) this.put(this.value, this.done++);
    while (this.done > 0 && this.line[this.done - 1] > line) this.put(this.before, --this.done);
  }

  put(values, place) {
    if (values[place] === ABSENT) this.now.delete(this.at[place]);
    else this.now.set(this.at[place], values[place]);
  }

  /** What a line writes: each word or key with what it was before and is after all of the line, which may be the same. */
  of(line) {
    const changed = new Map();
    for (let i = placeOf(this.line, line); this.line[i] === line; i++) {
      const earlier = changed.get(this.at[i]);
      changed.set(this.at[i], [earlier ? earlier[0] : this.before[i], this.value[i]]);
    }
    return changed;
  }
}
