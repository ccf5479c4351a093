// The page: the line that it is at, the filters, and what the user does.

class Page {
  constructor(model) {
    this.model = model;
    this.rows = new Rows(model);
    this.panels = new Panels(model);
    this.told = -1;
    this.line = model.fault || model.fold + 1;
    model.callers.forEach((caller, lane) => at("caller").append(new Option(`${caller}`, lane)));
    this.listenToSteps();
    this.listenToFilters();
    this.listenToLines();
    this.readAddress();
    this.goTo(this.line, true);
  }

  goTo(line, center) {
    const {model} = this, wanted = Math.round(line) || 1;
    if (wanted <= model.fold && wanted > 0) {
      this.panels.showSaid(wanted);
      if (this.line > model.fold) return;
    }
    this.line = Math.max(Math.min(model.fold + 1, model.count), Math.min(model.count, wanted));
    for (const track of Object.values(model.tracks)) track.moveTo(this.line);
    this.rows.show(this.line, center);
    this.panels.say(this.line);
    at("slider").value = this.line;
    at("slider").setAttribute("aria-valuetext", `line ${this.line}: ${model.textOf(this.line)}`);
    clearTimeout(this.later);
    this.later = setTimeout(() => this.writeAddress(), 400);
  }

  /** To the row that is some rows further, whatever the filters leave. */
  step(rows) {
    const row = this.rows.rowOf(this.line), isSeen = this.rows.lineAt(row) === this.line;
    const to = row + rows - (!isSeen && rows > 0 ? 1 : 0), last = this.rows.height - 1;
    if (last >= 0) this.goTo(this.rows.lineAt(Math.max(0, Math.min(last, to))));
  }

  stepCommit(forward) {
    const {commitLines} = this.model, place = placeOf(commitLines, forward ? this.line + 1 : this.line);
    const line = commitLines[forward ? place : place - 1];
    if (line) this.goTo(line);
  }

  toFault() { if (this.model.fault) this.goTo(this.model.fault, true); }

  // The filters

  /** Leaves the rows that all filters keep, and the fault. */
  filter() {
    const {model, rows} = this, kept = this.keptLines();
    rows.kept = kept && Int32Array.from(kept);
    at("left").textContent = kept ? `${rows.height.toLocaleString("en")} of ${count(model.count - model.fold, "line")}` : "";
    at("all").hidden = !kept;
    this.goTo(this.line, true);
  }

  keptLines() {
    const {model} = this, lane = at("caller").value, typed = at("key").value.trim();
    const near = at("related").checked ? model.linesNear() : null, about = typed === "" ? null : this.about(typed);
    if (lane === "" && !near && !about) return null;
    const kept = [], isOfLane = line => lane === "" || model.lanes[line - 1] === Number(lane);
    for (let line = model.fold + 1; line <= model.count; line++) {
      const isAbout = !about || about.lines.has(line) || about.calls.has(model.callOf[line]);
      if ((isOfLane(line) && isAbout && (!near || near.has(line))) || line === model.fault) kept.push(line);
    }
    return kept;
  }

  /** The lines and the calls about the key that was typed. */
  about(typed) {
    const {model} = this, key = model.numberIn(typed);
    return key === null ? {lines: new Set(), calls: new Set()} : {lines: model.linesAbout(key), calls: model.callsNaming(key)};
  }

  clear() {
    at("caller").value = at("key").value = "";
    at("related").checked = false;
    this.filter();
    this.rows.list.focus();
  }

  // What the user does

  listenToSteps() {
    const on = (id, act) => at(id).addEventListener("click", act);
    on("back", () => this.step(-1));
    on("on", () => this.step(1));
    on("before", () => this.stepCommit(false));
    on("next", () => this.stepCommit(true));
    on("fault", () => this.toFault());
    on("overview", event => this.goTo(this.rows.lineIn(event.offsetX, at("overview").clientWidth), true));
    at("slider").min = Math.min(this.model.fold + 1, this.model.count);
    at("slider").max = this.model.count;
    at("slider").addEventListener("input", () => this.goTo(Number(at("slider").value)));
    document.addEventListener("keydown", event => this.press(event));
    document.addEventListener("click", event => {
      const found = event.target.closest("[data-line]:not(.row)");
      if (found) this.goTo(Number(found.dataset.line), true);
    });
  }

  listenToFilters() {
    at("filters").addEventListener("submit", event => event.preventDefault());
    for (const id of ["caller", "related"]) at(id).addEventListener("change", () => this.filter());
    at("all").addEventListener("click", () => this.clear());
    at("key").addEventListener("input", () => {
      clearTimeout(this.typing);
      this.typing = setTimeout(() => this.filter(), 200);
    });
  }

  listenToLines() {
    const {list} = this.rows;
    list.addEventListener("scroll", () => this.rows.scrolledByHand());
    list.addEventListener("wheel", event => {
      if (event.ctrlKey) return;
      event.preventDefault();
      this.hideCard();
      this.rows.scrollTo(this.rows.first + event.deltaY / (event.deltaMode === 1 ? 1 : ROW));
    }, {passive: false});
    list.addEventListener("click", event => {
      const row = event.target.closest(".row");
      if (row) this.goTo(Number(row.dataset.line));
    });
    list.addEventListener("mousemove", event => this.showCard(event));
    list.addEventListener("mouseleave", () => this.hideCard());
    window.addEventListener("resize", () => this.rows.scrollTo(this.rows.first));
    at("specification").addEventListener("toggle", () => this.rows.show(this.line, false));
    window.addEventListener("hashchange", () => {
      if (location.hash === this.address) return;
      this.readAddress();
      this.goTo(this.line, true);
    });
    matchMedia("(prefers-color-scheme: dark)").addEventListener("change", () => this.rows.draw());
  }

  /** What each key does. */
  acts() {
    const {model} = this, call = model.callOf[this.line] ?? -1, page = Math.max(1, Math.floor(this.rows.fits) - 2);
    const step = rows => () => this.step(rows), go = line => () => { if (call >= 0 && line) this.goTo(line); };
    return {
      ArrowDown: step(1), ArrowRight: step(1), ArrowUp: step(-1), ArrowLeft: step(-1),
      PageDown: step(page), PageUp: step(-page), Home: step(-model.count), End: step(model.count),
      n: () => this.stepCommit(true), p: () => this.stepCommit(false), f: () => this.toFault(),
      c: go(model.calls[call]), r: go(model.returns[call]), "/": () => at("key").focus(),
    };
  }

  press(event) {
    const {target, key} = event, isOther = event.ctrlKey || event.metaKey || event.altKey;
    if (key === "Escape") this.clear();
    else if (isOther || target.matches("#key, select") || (target.matches(".scroll") && key.length > 1)) return;
    else if (this.acts()[key]) {
      event.preventDefault();
      this.acts()[key]();
    }
  }

  /** What is known of the line under the pointer. */
  showCard(event) {
    const row = event.target.closest(".row"), card = at("card");
    if (!row) return;
    const line = Number(row.dataset.line);
    if (line !== this.told) card.replaceChildren(this.panels.facts(line));
    this.told = line;
    card.hidden = false;
    const isLow = event.clientY + 18 + card.offsetHeight > innerHeight;
    card.style.left = `${Math.max(8, Math.min(event.clientX + 14, innerWidth - card.offsetWidth - 8))}px`;
    card.style.top = `${isLow ? event.clientY - card.offsetHeight - 10 : event.clientY + 18}px`;
    this.rows.heat(this.model.callOf[line] ?? -1);
  }

  hideCard() {
    at("card").hidden = true;
    this.rows.heat(-1);
  }

  // The address has the line and the filters, so that a place can be passed on.

  readAddress() {
    const wanted = new URLSearchParams(location.hash.slice(1)), caller = wanted.get("caller");
    this.line = Number(wanted.get("line")) || this.line;
    at("key").value = wanted.get("key") || "";
    at("caller").value = caller === null ? "" : String(this.model.callers.indexOf(Number(caller)));
    if (at("caller").selectedIndex < 0) at("caller").value = "";
    at("related").checked = wanted.has("related") && Boolean(this.model.fault);
    this.filter();
  }

  writeAddress() {
    const said = new URLSearchParams({line: this.line});
    if (at("key").value) said.set("key", at("key").value);
    if (at("caller").value) said.set("caller", this.model.callers[at("caller").value]);
    if (at("related").checked) said.set("related", "");
    this.address = `#${said}`;
    try { history.replaceState(null, "", this.address); } catch { /* some browsers have none for files */ }
  }
}

async function open() {
  const columns = await unpackedColumns(at("data").textContent);
  const data = JSON.parse(new TextDecoder().decode(columns.data));
  at("data").remove();
  window.page = new Page(new Model(data, columns));
  document.documentElement.dataset.ready = "yes";
  performance.mark("ready");
}

open().catch(error => {
  at("answer").textContent = "This browser can't show the page";
  const isOld = typeof DecompressionStream === "undefined";
  at("sentence").textContent = isOld ? "It has no DecompressionStream; browsers from 2023 on do." : error.stack;
  throw error;
});
