// What stands around the lines: the answer in short, and of the line that the page is at the call, the views, the state, the words.

const MOST_PARTS = 80, MOST_KEYS = 120, FEW = 12; // rows of a table, and from how many rows on those that matter stand first
const NOT_FOLLOWED = "not followed: the log is wrong from here on";
const MOST_ELEMENTS = 16; // of a list that are shown: so many at its front, and as many at its end

const more = (number, what) => number > 0 ? make("p", "more", `${number.toLocaleString("en")} ${what}`) : "";
const listed = (texts, most) => texts.slice(0, most).join("; ") + (texts.length > most ? `; and ${texts.length - most} more` : "");
const coded = text => text.split("`").map((part, i) => i % 2 ? make("code", "", part) : part);
const hasChanged = ([, [old, now]]) => old !== now;
const listOf = place => ((place % LISTS_APART) + LISTS_APART) % LISTS_APART; // places before a list's first one are below 0

/** A text in which each `line N` leads to that line. */
function withJumps(text) {
  return text.split(/(\bline \d+)/).map((part, i) => {
    if (i % 2 === 0) return coded(part);
    const jump = make("button", "jump", part);
    jump.type = "button";
    jump.dataset.line = part.slice(5);
    return jump;
  });
}

/** Some of the numbers: all where there are few, and otherwise the pinned ones first. Great ones, which are below 0, come last. */
function some(all, pinned, most) {
  const compare = (a, b) => a < 0 || b < 0 ? b - a : a - b, rising = some => [...some].sort(compare);
  const every = rising(new Set([...all, ...pinned]));
  return every.length <= FEW ? every : [...rising(pinned), ...every.filter(number => !pinned.has(number))].slice(0, most);
}

/** Scrolls a box to something in it that is out of sight. */
function reveal(inside, box) {
  if (!inside) return;
  const {top, bottom} = inside.getBoundingClientRect(), seen = box.getBoundingClientRect();
  if (top < seen.top + 20 || bottom > seen.bottom) box.scrollTop += top - seen.top - seen.height / 2;
}

function table(head, rows) {
  if (!rows.length) return "";
  return make("table", "", make("thead", "", make("tr", "", head.map(name => make("th", "", name)))), make("tbody", "", rows));
}

class Panels {
  constructor(model) {
    this.model = model;
    this.sayVerdict();
    this.saySpecification();
    this.sayFindings();
  }

  // What stays as it is

  sayVerdict() {
    const {answer, summary, fault} = this.model;
    document.querySelector("header").classList.toggle("fault", Boolean(fault));
    at("answer").textContent = answer || "No answer about this log";
    at("sentence").replaceChildren(...coded(summary.sentence));
    at("clue").replaceChildren(...withJumps(summary.clue).flat());
    at("about").textContent = this.about();
    at("misfit").hidden = !summary.names.length;
    const pair = (name, i) => make("div", "", make("dt", "", name), make("dd", "", summary.texts[i]));
    at("misfit").append(...summary.names.map(pair));
    for (const id of ["fault", "only"]) at(id).hidden = !fault;
  }

  about() {
    const {name, subject, size, callers, lines, calls, commitLines, isOwn, compares} = this.model;
    const own = `a specification of its own, ${count(size, "word")}`, builtIn = `${subject} of size ${size}`;
    const kind = !subject ? "no sound header or specification" : isOwn ? own : builtIn;
    const counts = [[callers, "caller"], [{length: lines}, "line"], [calls, "call"], [commitLines, "commit"]];
    const said = [kind, ...counts.map(([all, what]) => count(all.length, what))].join(", ");
    return `${name}: ${said}` + (isOwn && subject && !compares ? ". No words are compared: replies alone are judged." : "");
  }

  /** The lines in front of the log, which are folded. */
  saySpecification() {
    const {model} = this, panel = at("specification"), rows = [];
    panel.hidden = !model.fold;
    for (let line = 1; line <= model.fold; line++) {
      const row = make("div", "said", make("span", "number", String(line)), make("code", "", model.textOf(line)));
      row.id = `said-${line}`;
      row.classList.toggle("near", model.near.has(line));
      rows.push(row);
    }
    panel.firstElementChild.textContent = `The specification, lines 1 to ${model.fold}`;
    panel.lastElementChild.append(...rows);
  }

  /** Opens the specification at a line of it. */
  showSaid(line) {
    const panel = at("specification"), row = at(`said-${line}`);
    panel.open = true;
    panel.querySelectorAll(".at").forEach(other => other.classList.remove("at"));
    row.classList.add("at");
    reveal(row, panel.lastElementChild);
  }

  sayFindings() {
    const found = this.model.findings;
    at("findings").hidden = !found.length;
    const say = text => text.startsWith("  ") ? this.finding(text) : make("h3", "", withJumps(text));
    at("findings").lastElementChild.append(...found.flat().map(say));
  }

  finding(text) {
    const depth = text.search(/\S/), row = make("div", "found", withJumps(text.trim())), [line] = linesIn(text);
    row.classList.toggle("deep", depth > 2);
    if (line) row.dataset.line = line;
    return row;
  }

  // What belongs to a line

  say(line) {
    this.line = line;
    at("line").replaceChildren(this.facts(line));
    this.sayViews();
    this.sayState();
    this.sayWords();
    document.querySelectorAll(".found").forEach(row => row.classList.toggle("at", Number(row.dataset.line) === line));
  }

  /** What is known of a line: its text, its call, and what it changed. */
  facts(line) {
    const {model} = this, {shown} = model.tracks, call = model.callOf[line] ?? -1;
    const facts = [[`Line ${line}`, make("code", "", model.textOf(line))]];
    if (call >= 0) facts.push(["Call", `caller ${model.callers[model.lanes[line - 1]]}: ${model.tellCall(call)}`]);
    if (model.kindOf(line) === "w") facts.push(["Writes", this.tellWrite(line)]);
    else if (model.tracks.words.of(line).size) facts.push(["In effect", this.tellEffect(line)]);
    const shows = listed([...shown.of(line)].filter(hasChanged).map(([key, change]) => model.tellAmount(key, change)), 4);
    if (shows) facts.push(["Words show", shows]);
    if (model.isCommit(line)) facts.push([`Commit ${model.orderOf(line)}`, this.tellCommit(line)]);
    return make("dl", "facts", facts.map(([term, text]) => [make("dt", "", term), make("dd", "", text)]));
  }

  tellWrite(line) {
    const {model} = this, effect = model.effectOf(line);
    if (!effect && line > model.until) return NOT_FOLLOWED;
    if (!effect) return "not in effect: its block isn't ended" + (model.isBehind(line) ? ", or the log is wrong behind the fault" : "");
    const [word, old, now] = model.writeOf(line);
    const nothing = (old === ABSENT ? 0 : old) === now ? ", which changes nothing" : "";
    return model.tellWord(word, [old, now]) + nothing + (effect === line ? "" : `, in effect on line ${effect}`);
  }

  tellEffect(line) {
    const {model} = this, changed = [...model.tracks.words.of(line)].filter(hasChanged);
    return listed(changed.map(([word, change]) => model.tellWord(word, change)), 4) || "writes that change nothing";
  }

  tellCommit(line) {
    const {model} = this, {has, hidden, registers, lists} = model.tracks, said = [];
    const texts = (track, tell) => said.push(...[...track.of(line)].filter(hasChanged).map(([at, change]) => tell(at, change)));
    const change = ([old, now]) => `${model.numberText(old) ?? 0} → ${model.numberText(now)}`;
    texts(has, (key, amounts) => model.tellAmount(key, amounts));
    texts(hidden, (key, amounts) => `{${model.numberText(key)}} ${change(amounts)}`);
    texts(registers, (place, values) => `${model.registers[place]} ${change(values)}`);
    const move = ([old, now]) => now === ABSENT ? `loses ${model.numberText(old)}` : `gets ${model.numberText(now)}`;
    texts(lists, (place, items) => `${model.lists[listOf(place)]} ${move(items)}`);
    if (line > model.until) return NOT_FOLLOWED;
    return listed(said, 4) || (model.isKnown(line) ? "changes nothing in the specification" : "what it does isn't known here");
  }

  // The views

  sayViews() {
    const {model} = this, panel = at("views"), {shown, has} = model.tracks, showed = shown.of(this.line), did = has.of(this.line);
    panel.hidden = !model.table || !model.until;
    if (panel.hidden) return;
    const {keys, pinned} = this.keysOf(showed, did), seen = some(keys, pinned, MOST_KEYS);
    const rows = seen.map(key => this.viewRow(key, showed, did));
    if (seen.length > FEW && pinned.size) rows[pinned.size - 1]?.classList.add("last");
    const head = model.compares ? ["key", "the words show", "the specification has"] : ["key", "the specification has"];
    const title = model.compares ? "View of the words, and state of the specification" : "State of the specification";
    panel.firstElementChild.textContent = title;
    at("compared").textContent = this.whatIsCompared();
    panel.lastElementChild.replaceChildren(table(head, rows), more(keys.size - seen.length, "more that are the same on both sides"),
      rows.length ? "" : make("p", "more", model.compares ? "Both are empty." : "No amounts."));
    const [news] = ["tr.differs", "tr.ahead", "td.new"].map(kind => panel.querySelector(kind)).filter(Boolean);
    reveal(news, panel.lastElementChild);
  }

  /** The keys at which there is something, and those that matter at this line. */
  keysOf(showed, did) {
    const {model} = this, {shown, has} = model.tracks, keys = new Set(), pinned = new Set([...showed.keys(), ...did.keys()]);
    for (const key of new Set([...shown.now.keys(), ...has.now.keys()])) {
      const one = model.amountAt(shown, key), other = model.amountAt(has, key);
      if (one !== other && model.compares) pinned.add(key);
      if (!model.zeros.includes(one) || !model.zeros.includes(other)) keys.add(key);
    }
    const named = model.summary.key === null ? null : model.numberIn(model.summary.key);
    if (named !== null) pinned.add(named);
    return {keys, pinned};
  }

  viewRow(key, showed, did) {
    const {model} = this, {shown, has} = model.tracks, one = model.amountAt(shown, key), other = model.amountAt(has, key);
    const cell = (amount, isNew) => make("td", isNew ? "new" : "", model.amountText(amount));
    const kind = !model.compares || one === other ? "" : model.isCompared(this.line) ? "differs" : "ahead";
    const shows = model.compares ? cell(one, showed.has(key)) : null;
    return make("tr", kind, make("th", "", model.keyName(key)), shows, cell(other, did.has(key)));
  }

  whatIsCompared() {
    const {model, line} = this, {fault, until} = model;
    if (fault && line > fault) return "Behind the fault nothing is judged.";
    if (line > until) return `The log is wrong: these are of line ${until}.`;
    if (line >= model.knownUntil) return `The state isn't known from line ${model.knownUntil} on: that commit's call doesn't return.`;
    if (!model.compares) return "The specification compares no words: replies alone are judged.";
    if (model.isCompared(line)) return `Compared here, at commit ${model.orderOf(line)}.`;
    if (line === fault && model.isCommit(line)) return "The reply isn't allowed: the specification stays as it was before.";
    return "Both are compared at commits; in between the words may be ahead.";
  }

  /** Registers, lists and hidden amounts, in version 3. */
  sayState() {
    const {model} = this, panel = at("state"), {hidden} = model.tracks, did = hidden.of(this.line);
    const rows = model.registers.map((name, place) => this.registerRow(name, place));
    rows.push(...model.lists.map((name, place) => this.listRow(name, place)));
    const keys = some([...hidden.now.keys()].filter(key => hidden.now.get(key)), new Set(did.keys()), MOST_KEYS);
    rows.push(...keys.map(key => this.valueRow(`{${model.numberText(key)}}`, hidden, key, did)));
    panel.hidden = !model.until || !(rows.length || hidden.line.length);
    const none = rows.length ? "" : make("p", "more", "Hidden amounts are all 0.");
    panel.lastElementChild.replaceChildren(table(["", "is"], rows), none);
    reveal(panel.querySelector(".new"), panel.lastElementChild);
  }

  registerRow(name, place) {
    const {registers} = this.model.tracks;
    return this.valueRow(name, registers, place, registers.of(this.line));
  }

  /** A value, and what it was before where the line changes it. */
  valueRow(name, track, at, did) {
    const {model} = this, now = model.numberText(track.now.get(at) ?? 0), change = did.get(at);
    const isNew = change && change[0] !== change[1], old = isNew ? model.numberText(change[0]) ?? "0" : "";
    return make("tr", "", make("th", "", name), make("td", isNew ? "new" : "", isNew ? [make("s", "", old), " "] : "", now));
  }

  /** A list from its front to its end, with what the line took out of it or put into it. */
  listRow(name, place) {
    const {model} = this, {lists} = model.tracks, did = lists.of(this.line);
    const both = new Set([...lists.now.keys(), ...did.keys()]);
    const places = [...both].filter(at => listOf(at) === place).sort((a, b) => a - b);
    const element = at => {
      const now = lists.now.get(at) ?? ABSENT, change = did.get(at);
      const text = model.numberText(now === ABSENT ? change[0] : now);
      if (text === null) return [];
      return [make(now === ABSENT ? "s" : change ? "b" : "span", "", text), " "];
    };
    const isLong = places.length > 2 * MOST_ELEMENTS, length = places.filter(at => lists.now.has(at)).length;
    const front = isLong ? places.slice(0, MOST_ELEMENTS) : places, end = isLong ? places.slice(-MOST_ELEMENTS) : [];
    const between = isLong ? `.. ${(places.length - 2 * MOST_ELEMENTS).toLocaleString("en")} more .. ` : "";
    const isNew = places.some(at => did.has(at));
    return make("tr", "", make("th", "", name, make("small", "", count(length, "element"))),
      make("td", isNew ? "new list" : "list", places.length ? [front.map(element), between, end.map(element)] : "empty"));
  }

  // The words

  sayWords() {
    const {model} = this, panel = at("words");
    panel.hidden = !model.table || !model.until || !model.wordCount;
    if (panel.hidden) return;
    const {fields, columns, beside} = model.table, changed = model.tracks.words.of(this.line);
    const {parts, pinned} = this.partsOf(changed);
    const seen = some(parts, pinned, MOST_PARTS), {part} = model.table;
    const cells = number => columns.map(([, ...inside]) => this.cell(inside.map(field => number * fields.length + field), changed));
    const rows = seen.map(number => make("tr", "", make("th", "", `${part} ${number}`), cells(number)));
    if (seen.length > FEW && pinned.size) rows[pinned.size - 1]?.classList.add("last");
    for (const word of Object.keys(beside).map(Number)) {
      const cell = this.cell([word], changed);
      cell.colSpan = columns.length;
      rows.push(make("tr", "", make("th", "", beside[word].replace("the count of ", "")), cell));
    }
    panel.lastElementChild.replaceChildren(table(["", ...columns.map(([name]) => name)], rows),
      more(parts.size - seen.length, "more of them that aren't all 0"), rows.length ? "" : make("p", "more", "All words are 0."));
    panel.classList.toggle("wide", fields.length > 8);
    reveal(panel.querySelector("td.new"), panel.lastElementChild);
  }

  /** The parts that aren't all 0, and those that matter: what the line changes, and what the writes that explain names write. */
  partsOf(changed) {
    const {model} = this, {fields, beside} = model.table, parts = new Set(), pinned = new Set();
    const isInPart = word => !(word in beside);
    for (const [word, value] of model.tracks.words.now) if (value !== 0 && isInPart(word)) parts.add(model.partAt(word));
    for (const word of changed.keys()) if (isInPart(word)) pinned.add(model.partAt(word));
    for (const number of model.nearParts) if (isInPart(number * fields.length)) pinned.add(number);
    return {parts, pinned};
  }

  /** A cell with some words, and what they were before where the line changes them. */
  cell(words, changed) {
    const {model} = this, {now} = model.tracks.words, old = word => changed.has(word) ? changed.get(word)[0] : now.get(word) ?? 0;
    const after = words.map(word => model.valueName(word, now.get(word) ?? 0)).join(": ");
    const before = words.map(word => model.valueName(word, old(word))).join(": ");
    const isNews = before !== after && !/^0(: 0)?$/.test(before);
    return make("td", words.some(word => changed.has(word)) ? "new" : "", isNews ? [make("s", "", before), " "] : "", after);
  }
}
