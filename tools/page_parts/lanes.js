// The lines in sight: their rows, the lanes beside them, and the strip that shows the whole log.

const ROW = 22; // pixels, as page.css has it
const NUMBER = 72; // pixels, the width of a line's number
const TALLEST = 8000000; // pixels that a browser scrolls well
const LEGEND = "● write   ○ in effect elsewhere   ━ commit   ";

const at = id => document.getElementById(id);

/** An element with its class and its content: texts, elements, or lists of these. All text of a log goes in as text. */
function make(name, kind, ...content) {
  const made = document.createElement(name);
  if (kind) made.className = kind;
  made.append(...content.flat(Infinity).filter(each => each !== null));
  return made;
}

function draw(name, attributes, text) {
  const made = document.createElementNS("http://www.w3.org/2000/svg", name);
  for (const [key, value] of Object.entries(attributes)) made.setAttribute(key, value);
  if (text !== undefined) made.textContent = text;
  return made;
}

const cut = (text, most) => text.length > most ? text.slice(0, Math.max(0, most - 1)) + "…" : text;

/** How wide a lane is: so many pixels that all lanes leave room for the lines, in a narrow window too. */
function laneWidth(lanes) {
  const least = lanes > 128 ? 2 : lanes > 64 ? 3 : 7, most = lanes > 2 ? 120 : innerWidth < 1300 ? 110 : 150;
  const room = Math.min(lanes <= 5 ? 440 : 400, innerWidth * 0.35);
  return Math.max(least, Math.min(most, Math.floor(room / Math.max(1, lanes))));
}

/** The rows: all lines where `kept` is null, and otherwise those that the filters leave. */
class Rows {
  constructor(model) {
    Object.assign(this, {model, kept: null, first: 0, chosen: 1, hot: -1});
    this.wide = laneWidth(model.callers.length);
    this.left = NUMBER + this.wide * model.callers.length + 10;
    this.hasLabels = this.wide >= 84;
    this.list = at("list");
    this.sayHeads();
  }

  get height() { return this.kept ? this.kept.length : this.model.count - this.model.fold; }
  get fits() { return Math.max(1, this.list.clientHeight / ROW); }
  lineAt(row) { return this.kept ? this.kept[row] : row + 1 + this.model.fold; }
  rowOf(line) { return this.kept ? placeOf(this.kept, line) : line - 1 - this.model.fold; }

  sayHeads() {
    const {callers} = this.model, digits = String(callers.at(-1)).length, every = Math.ceil((4 + 8 * digits) / this.wide);
    callers.forEach((caller, lane) => {
      const head = make("span", "", this.wide >= 60 ? `caller ${caller}` : String(caller));
      head.style.left = `${NUMBER + lane * this.wide + 2}px`;
      if (lane % every === 0) at("heads").append(head);
    });
    const legend = make("span", "legend", LEGEND, make("i", "", " block "), "   ", make("i", "observer", " only looks "));
    legend.style.left = `${this.left + (callers.length > 16 ? 14 : 0)}px`; // past the number of the last lane
    at("heads").append(legend);
  }

  /** Brings a line into sight, to the middle or by as little as is needed. */
  show(line, center) {
    const row = this.rowOf(line), fits = Math.floor(this.fits);
    this.chosen = line;
    if (center || row < this.first - fits || row > this.first + 2 * fits) this.first = row - Math.floor(fits * 0.6);
    else if (row < this.first + 1) this.first = row - 1;
    else if (row > this.first + fits - 2) this.first = row - fits + 2;
    this.scrollTo(this.first);
  }

  scrollTo(first) {
    this.first = Math.max(0, Math.min(this.height - this.fits, first));
    const tall = Math.min(this.height * ROW, TALLEST), room = Math.max(0, tall - this.list.clientHeight);
    at("tall").style.height = `${tall}px`;
    this.list.scrollTop = this.height > this.fits ? Math.round(this.first / (this.height - this.fits) * room) : 0;
    this.scrolled = this.list.scrollTop;
    this.draw();
  }

  /** The scroll bar was moved, by the user and not by `scrollTo`. */
  scrolledByHand() {
    if (this.list.scrollTop === this.scrolled) return;
    this.scrolled = this.list.scrollTop;
    const room = Math.max(1, this.list.scrollHeight - this.list.clientHeight);
    this.first = this.scrolled / room * Math.max(0, this.height - this.fits);
    this.draw();
  }

  draw() {
    const from = Math.floor(this.first), to = Math.min(this.height, Math.ceil(this.first + this.fits) + 1);
    const sheet = make("div", ""), rows = [];
    for (let row = from; row < to; row++) rows.push(this.row(row, from));
    sheet.append(...rows, this.lanes(from, to));
    sheet.style.top = `${(from - this.first) * ROW}px`;
    at("layer").replaceChildren(sheet);
    this.list.setAttribute("aria-activedescendant", `line-${this.chosen}`);
    this.drawOverview();
  }

  row(row, from) {
    const {model} = this, line = this.lineAt(row), isFault = line === model.fault;
    const raw = make("span", "raw", model.textOf(line)), means = make("span", "means", this.means(line));
    raw.style.marginLeft = `${this.left - NUMBER}px`;
    if (isFault) means.prepend(make("span", "verdict", `◀ ${model.answer.replace(/^.* at line \d+: /, "")}`));
    const made = make("div", "row", make("span", "number", String(line)), raw, means);
    const marks = {
      fault: isFault, near: model.near.has(line), clue: model.clues.has(line), chosen: line === this.chosen,
      unjudged: Boolean(model.fault) && line > model.fault, note: model.kindOf(line) === "#",
    };
    for (const [name, has] of Object.entries(marks)) made.classList.toggle(name, has);
    made.id = `line-${line}`;
    made.dataset.line = line;
    made.setAttribute("role", "option");
    made.setAttribute("aria-selected", String(line === this.chosen));
    made.style.top = `${(row - from) * ROW}px`;
    return made;
  }

  /** What an entry means, in a few words. What the lanes say already is left out. */
  means(line) {
    const {model} = this, kind = model.kindOf(line), call = model.callOf[line] ?? -1, said = [];
    if (kind === "w" || kind === "s") said.push(...this.meansOfWrite(line, kind));
    const name = call >= 0 && !this.hasLabels ? model.nameOf(call) : null;
    if (name !== null && model.isCommit(line)) said.push(make("b", "", `commit ${model.orderOf(line)}`), `: ${name}`);
    if (name !== null && kind === "r") said.push(`of ${name}`);
    const shown = [...model.tracks.shown.of(line)].filter(([, [old, now]]) => old !== now);
    const shows = shown.slice(0, 3).map(([key, [, now]]) => model.tellShown(key, now)).join(", ");
    if (shows) said.push(said.length ? "; shows " : "shows ", make("b", "", shows), shown.length > 3 ? " …" : "");
    return said;
  }

  meansOfWrite(line, kind) {
    const {model} = this, [word, value] = model.rawOf(line).split(" ").slice(-2), effect = model.effectOf(line);
    if (!(Number(word) < model.wordCount)) return [];
    if (kind === "s") return [`${model.wordName(Number(word))} begins as `, make("b", "", model.valueName(Number(word), value))];
    if (!effect) return [`${model.wordName(Number(word))}, to be ${model.valueName(Number(word), value)}: not in effect`];
    const [written, old, now] = model.writeOf(line);
    const told = [`${model.wordName(written)} ${model.valueName(written, old)} → `, make("b", "", model.valueName(written, now))];
    return effect === line ? told : [...told, `, on line ${effect}`];
  }

  // The lanes

  /** The lanes beside these rows: a bar for each call, blocks in it, a mark for each write, and a tick for each commit. */
  lanes(from, to) {
    const {model} = this, high = (to - from) * ROW;
    const svg = draw("svg", {width: this.left - NUMBER, height: high, "aria-hidden": "true"});
    const seen = {from, to, first: to > from ? this.lineAt(from) : 1, last: to > from ? this.lineAt(to - 1) : 0};
    model.callers.forEach((_, lane) => {
      const x = lane * this.wide + Math.min(12, this.wide / 2);
      if (this.wide > 4) svg.append(draw("line", {class: "axis", x1: x, x2: x, y1: 0, y2: high}));
      for (const call of this.callsSeen(lane, seen)) this.drawCall(svg, call, lane, seen);
      for (const block of this.blocksSeen(lane, seen)) this.drawBlock(svg, block, lane, seen);
    });
    for (let row = from; row < to; row++) this.drawMark(svg, this.lineAt(row), (row - from) * ROW + ROW / 2);
    return svg;
  }

  callsSeen(lane, {first, last}) {
    const {model} = this, calls = model.callsIn[lane], begins = call => model.calls[call];
    return calls.slice(Math.max(0, placeOf(calls, first + 1, begins) - 1), placeOf(calls, last + 1, begins))
      .filter(call => !model.returns[call] || model.returns[call] >= first);
  }

  blocksSeen(lane, {first, last}) {
    const blocks = this.model.blocksIn[lane], begins = block => block.open;
    return blocks.slice(Math.max(0, placeOf(blocks, first + 1, begins) - 1), placeOf(blocks, last + 1, begins))
      .filter(block => !block.close || block.close >= first);
  }

  /** The place of a row from the first one in sight on, no further out of sight than one row. */
  y(row, {from, to}) { return (Math.max(from - 1, Math.min(to + 1, row)) - from) * ROW; }

  drawCall(svg, call, lane, seen) {
    const {model} = this, begin = this.rowOf(model.calls[call]), end = model.returns[call] || model.count, x = lane * this.wide;
    const top = this.y(begin, seen) + 2, bottom = this.y(this.rowOf(end + 1), seen) - 2;
    if (bottom <= top || this.lineAt(begin) !== model.calls[call]) return;
    const kinds = {bar: true, observer: model.looks[call], guilty: call === model.faultCall, hot: call === this.hot};
    const kind = Object.keys(kinds).filter(name => kinds[name]).join(" ");
    const width = Math.max(1, this.wide - (this.wide > 12 ? 3 : 1)), height = bottom - top, rx = Math.min(4, width / 2);
    svg.append(draw("rect", {class: kind, x: x + 1, y: top, width, height, rx, "data-call": call}));
    if (this.hasLabels) this.labelCall(svg, call, x + 24, begin, end, seen.from);
  }

  /** The call's name where it begins, or at the top if that is out of sight, and its reply where it ends. */
  labelCall(svg, call, x, begin, end, from) {
    const {model} = this, most = Math.floor((this.wide - 28) / 7), reply = model.replyOf(call);
    const labelAt = Math.max(begin, Math.ceil(this.first));
    const isFree = labelAt < this.rowOf(end) && this.lineAt(labelAt) !== model.commits[call];
    const label = (row, text) => svg.append(draw("text", {x, y: (row - from) * ROW + 15}, cut(text, most)));
    if (isFree || begin === labelAt) label(labelAt, model.nameOf(call));
    if (reply !== null) label(this.rowOf(end), `→ ${reply}`);
  }

  drawBlock(svg, {open, close}, lane, seen) {
    const row = this.rowOf(open), top = this.y(row, seen) + 3, end = this.rowOf((close || this.model.count) + 1);
    const width = Math.max(1, Math.min(this.wide - 6, 20)), height = this.y(end, seen) - 3 - top;
    if (height <= 0 || this.lineAt(row) !== open) return;
    svg.append(draw("rect", {class: "block", x: lane * this.wide + 2, y: top, width, height, rx: 3}));
  }

  drawMark(svg, line, y) {
    const {model} = this, lane = model.lanes[line - 1], x = lane * this.wide;
    if (!(lane >= 0)) return;
    const kind = model.effectOf(line) === line ? "write" : "write late", cx = x + Math.min(12, this.wide / 2);
    if (model.kindOf(line) === "w") svg.append(draw("circle", {class: kind, cx, cy: y, r: Math.min(4, this.wide / 3)}));
    if (!model.isCommit(line)) return;
    const guilty = model.callOf[line] === model.faultCall ? " guilty" : "", most = Math.floor((this.wide - 32) / 7);
    svg.append(draw("line", {class: `tick${guilty}`, x1: x, x2: this.hasLabels ? x + 26 : x + this.wide - 1, y1: y, y2: y}));
    if (this.hasLabels) svg.append(draw("text", {class: "order", x: x + 30, y: y + 4}, cut(`commit ${model.orderOf(line)}`, most)));
  }

  /** The call that the pointer is over. */
  heat(call) {
    if (call === this.hot) return;
    this.hot = call;
    document.querySelectorAll(".bar").forEach(bar => bar.classList.toggle("hot", Number(bar.dataset.call) === call));
  }

  /** The whole log from left to right: what has to do with the fault, the fault, and what is in sight. */
  drawOverview() {
    const canvas = at("overview"), {model} = this, scale = window.devicePixelRatio || 1, width = canvas.clientWidth;
    const style = getComputedStyle(document.documentElement), color = name => style.getPropertyValue(name);
    canvas.width = width * scale;
    canvas.height = 22 * scale;
    const pen = canvas.getContext("2d"), x = line => this.placeIn(line, width);
    const fill = (name, ...place) => { pen.fillStyle = color(name); pen.fillRect(...place); };
    pen.scale(scale, scale);
    fill("--raised", 0, 4, width, 14);
    if (this.height) {
      const last = Math.min(this.height - 1, Math.floor(this.first + this.fits));
      const from = x(this.lineAt(Math.floor(this.first))), to = x(this.lineAt(last));
      fill("--line", from, 4, Math.max(3, to - from), 14);
    }
    for (const line of model.near) if (line > model.fold) fill("--link", x(line) - 1, 6, 2, 10);
    if (model.fault) fill("--bad", x(model.fault) - 1.5, 0, 3, 22);
    fill("--ink", x(this.chosen) - 0.5, 2, 1, 18);
  }

  placeIn(line, width) {
    const {count: last, fold} = this.model;
    return 8 + (line - 1 - fold) / Math.max(1, last - 1 - fold) * (width - 16);
  }

  /** The line that a place in the strip stands for. */
  lineIn(place, width) {
    const {count: last, fold} = this.model;
    return Math.max(fold + 1, 1 + fold + Math.round((place - 8) / (width - 16) * (last - 1 - fold)));
  }
}
