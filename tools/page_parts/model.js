// The log as the page knows it: lines, calls and blocks by lane, and the names of words, keys and amounts. Lines count from 1.

const LONGEST = 240; // characters of a line that are shown
const LISTS_APART = 16; // as tools/changes.py has it

/** A text in which bytes that can't be seen are shown. */
const visible = text => text.replace(/[\x00-\x1f]/g, byte => String.fromCharCode(0x2400 + byte.charCodeAt(0)))
  .replace(/[\x7f-\xa0\xad]/g, "\u{fffd}");
const linesIn = text => [...text.matchAll(/\bline (\d+)/g)].map(found => Number(found[1]));
const count = (number, what) => `${number.toLocaleString("en")} ${what}${number === 1 ? "" : "s"}`;

class Model {
  constructor(data, columns) {
    Object.assign(this, data);
    this.lines = data.count;
    this.count = Math.max(data.count, data.fault || 1);
    this.isOwn = data.version === "3";
    this.fold = this.isOwn && data.front > 1 && !(data.fault <= data.front && data.fault) ? data.front : 0;
    this.text = columns.text;
    this.starts = this.lineStarts();
    this.kinds = columns.kinds;
    this.sortLanes(new Int16Array(columns.lanes.buffer));
    this.readCalls(columns);
    this.readTracks(columns);
    this.named = {line: rising(columns["named.line"]), at: numbers(columns["named.at"])};
    this.near = new Set(data.findings.flat().flatMap(linesIn));
    this.clues = new Set(data.summary.lines);
    this.nearParts = this.partsOf(this.near);
  }

  lineStarts() {
    const starts = new Uint32Array(this.lines + 1), {text} = this;
    let line = 0;
    for (let i = 0; i < text.length; i++) if (text[i] === 10) starts[++line] = i + 1;
    if (line < this.lines) starts[this.lines] = text.length + 1;
    return starts;
  }

  /** Lanes stand in the order of their callers' numbers, and the column has them as they come. */
  sortLanes(lanes) {
    const order = this.callers.map((caller, lane) => [caller, lane]).sort((one, other) => one[0] - other[0]);
    const places = new Int16Array(order.length);
    order.forEach(([, lane], place) => { places[lane] = place; });
    for (let i = 0; i < lanes.length; i++) if (lanes[i] >= 0) lanes[i] = places[lanes[i]];
    this.callers = order.map(([caller]) => caller);
    this.lanes = lanes;
  }

  readCalls(columns) {
    this.calls = rising(columns.calls);
    const later = bytes => integers(bytes).map((after, call) => after && this.calls[call] + after);
    this.commits = later(columns.commits);
    this.returns = later(columns.returns);
    this.looks = columns.looks;
    this.knownUntil = Math.min(...this.commits.filter((line, call) => line && !this.returns[call]), Infinity);
    this.commitLines = this.commits.filter(line => line).sort();
    this.callOf = new Int32Array(this.count + 2).fill(-1);
    this.callsIn = this.callers.map(() => []);
    this.blocksIn = this.callers.map(() => []);
    this.readLines();
    this.faultCall = this.fault ? this.callOf[this.fault] : -1;
  }

  /** To which call each line belongs, and where blocks begin and end. */
  readLines() {
    const open = this.callers.map(() => -1), kind = letter => letter.charCodeAt(0);
    const [call, begin, end, endWithCommit, back] = ["c", "o", "x", "X", "r"].map(kind);
    let calls = 0;
    for (let line = 1; line <= this.lines; line++) {
      const lane = this.lanes[line - 1], is = this.kinds[line - 1], number = is === call ? calls++ : -1;
      if (lane < 0) continue;
      if (is === call) {
        open[lane] = number;
        this.callsIn[lane].push(number);
      }
      this.callOf[line] = open[lane];
      const blocks = this.blocksIn[lane];
      if (is === begin) blocks.push({open: line, close: 0});
      else if ((is === end || is === endWithCommit) && blocks.length && !blocks.at(-1).close) blocks.at(-1).close = line;
      else if (is === back) open[lane] = -1;
    }
  }

  readTracks(columns) {
    const tracks = ["words", "shown", "has", "hidden", "registers", "lists"];
    this.tracks = Object.fromEntries(tracks.map(name => [name, new Track(columns, name)]));
    const {line} = this.tracks.words, away = new Int32Array(columns["words.source"].buffer);
    this.sources = line.map((effect, i) => effect + away[i]);
    this.changeOf = new Int32Array(this.count + 2).fill(-1); // by the line of a write: its change of a word
    for (let i = 0; i < line.length; i++) if (line[i]) this.changeOf[this.sources[i]] = i;
  }

  /** The parts of the words that the writes on these lines write. */
  partsOf(lines) {
    const parts = new Set(), {at} = this.tracks.words;
    for (const line of lines) if (this.changeOf[line] >= 0) parts.add(this.partAt(at[this.changeOf[line]]));
    return parts;
  }

  partAt(word) { return this.table ? Math.floor(word / this.table.fields.length) : -1; }

  // Lines

  kindOf(line) { return line <= this.lines ? String.fromCharCode(this.kinds[line - 1]) : "?"; }

  /** A line as it stands in the log, or its beginning. */
  rawOf(line) {
    if (line > this.lines) return "";
    const from = this.starts[line - 1], to = Math.min(this.starts[line] - 1, from + LONGEST);
    return String.fromCharCode(...this.text.subarray(from, to));
  }

  textOf(line) {
    if (line > this.lines) return "(the input has ended)";
    const length = this.starts[line] - 1 - this.starts[line - 1];
    return visible(this.rawOf(line)) + (length > LONGEST ? ` … (${count(length, "byte")})` : "");
  }

  /** The line on which a write takes effect, and 0 where it has none. */
  effectOf(line) {
    const change = this.changeOf[line] ?? -1;
    return change < 0 ? 0 : this.tracks.words.line[change];
  }

  /** The word that a write writes, what that was before the write took effect, and its value. */
  writeOf(line) {
    const {at, before, value} = this.tracks.words, change = this.changeOf[line];
    return [at[change], before[change], value[change]];
  }

  // Calls

  nameOf(call) { return visible(this.rawOf(this.calls[call]).replace(/^\S+ call /, "")); }
  replyOf(call) { return this.returns[call] ? visible(this.rawOf(this.returns[call]).replace(/^.* /, "")) : null; }
  orderOf(line) { return placeOf(this.commitLines, line) + 1; }
  isCommit(line) { return this.callOf[line] >= 0 && this.commits[this.callOf[line]] === line; }

  isBehind(line) { return Boolean(this.fault) && line > this.fault; }
  isRefused(line) { return line === this.fault && !/view differs/.test(this.answer); }

  /** Whether it is known what the specification's step does at a commit, also if it changes nothing. */
  isKnown(line) { return !this.isBehind(line) && !this.isRefused(line) && line < this.knownUntil; }

  /** Whether both views are compared after a line. A reply that isn't allowed leaves the specification where it was. */
  isCompared(line) { return this.compares && this.isCommit(line) && this.isKnown(line) && line <= this.until; }

  /** A call in one line: what it is, and where it begins, commits and returns. */
  tellCall(call) {
    const reply = this.replyOf(call), commit = this.commits[call];
    return `${this.nameOf(call)}, called on line ${this.calls[call]}` + (commit ? `, committed on line ${commit}` : "") +
      (reply === null ? ", not returned" : `, replied ${reply} on line ${this.returns[call]}`);
  }

  // Numbers and names

  numberText(number) { return number < 0 ? this.great[-1 - number] : String(number); }

  /** The number that a text means in the columns, or null where none of them has it. */
  numberIn(text) {
    if (!/^\d{1,20}$/.test(text)) return null;
    const place = this.great.indexOf(text);
    return place > 0 ? -1 - place : Number(text);
  }

  amountText(amount) { return this.told ? this.told[amount] : this.numberText(amount); }
  get isByPart() { return this.subject === "cache" || this.subject === "buffers"; }
  isDamage(key) { return this.damage !== null && key >= this.damage; }

  keyName(key) {
    if (!this.isDamage(key)) return this.isByPart ? `${this.table.part} ${key}` : this.numberText(key);
    return this.isByPart ? `damage of ${this.table.part} ${key - this.damage}` : "damage";
  }

  /** An amount that the words show at a key, in a few words. In version 3 it is spelled as in the specification. */
  tellShown(key, amount) {
    return this.isOwn ? `[${this.keyName(key)}] = ${this.amountText(amount)}` : `${this.keyName(key)} ${this.amountText(amount)}`;
  }

  /** An amount at a key. Where a track has none, it is that of 0. */
  amountAt(track, key) { return track.now.get(key) ?? this.zeros[this.isDamage(key) ? 1 : 0]; }

  wordName(word) {
    const {part, fields, beside} = this.table;
    if (beside[word]) return beside[word];
    const number = Math.floor(word / fields.length), field = fields[word % fields.length];
    if (!this.isOwn) return `${part} ${number} ${field}`;
    return part === "part" ? `word ${word} (${field} of part ${number})` : `word ${word}`;
  }

  /** A word's value, by its name where it is a state. A word that wasn't written is 0. */
  valueName(word, value) {
    const {fields, states} = this.table, number = value === ABSENT ? 0 : value;
    return word % fields.length === 0 && states[number] || this.numberText(number);
  }

  tellWord(word, [old, now]) { return `${this.wordName(word)} ${this.valueName(word, old)} → ${this.valueName(word, now)}`; }

  tellAmount(key, [old, now]) {
    const zero = this.zeros[this.isDamage(key) ? 1 : 0];
    const name = this.isOwn ? `[${this.keyName(key)}]` : `${this.keyName(key)}:`;
    return `${name} ${this.amountText(old === ABSENT ? zero : old)} → ${this.amountText(now)}`;
  }

  // Filters

  /** The lines that name a key, write it, or change what the words show there. */
  linesAbout(key) {
    const named = this.isByPart && this.isDamage(key) ? key - this.damage : key, lines = new Set();
    this.named.at.forEach((other, i) => { if (other === named) lines.add(this.named.line[i]); });
    const {shown, words} = this.tracks, effects = new Set();
    shown.at.forEach((other, i) => { if (other === key && shown.line[i]) effects.add(shown.line[i]); });
    words.line.forEach((effect, i) => { if (effects.has(effect)) lines.add(this.sources[i]); });
    return new Set([...lines, ...effects]);
  }

  /** The calls that name a key. */
  callsNaming(key) {
    const named = this.isByPart && this.isDamage(key) ? key - this.damage : key, calls = new Set();
    this.named.at.forEach((other, i) => { if (other === named) calls.add(this.callOf[this.named.line[i]]); });
    calls.delete(-1);
    return calls;
  }

  /** The lines of what has to do with the fault, with all of the calls that they belong to. */
  linesNear() {
    const lines = new Set([...this.near, this.fault]);
    const calls = new Set([...lines].map(line => this.callOf[line] ?? -1).filter(call => call >= 0));
    for (const call of calls) {
      const last = this.returns[call] || this.lines;
      for (let line = this.calls[call]; line <= last; line++) if (this.callOf[line] === call) lines.add(line);
    }
    return lines;
  }
}
