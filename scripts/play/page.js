// The page: what it says of a moment, and how one goes from ticket to ticket.

const LINE_HEIGHT = 20; // of the list of calls, as the style has it

const part = (id) => document.getElementById(id);

function make(name, text, attributes = {}) {
  const made = document.createElement(name);
  made.textContent = text;
  for (const [key, value] of Object.entries(attributes)) made.setAttribute(key, value);
  return made;
}

/** Replaces the parts of a list or a table only where what they say is another. */
function fill(parent, items, makeItem) {
  const key = JSON.stringify(items);
  if (parent.filled === key) return;
  parent.filled = key;
  parent.replaceChildren(...items.map(makeItem));
}

function row(texts) {
  const made = document.createElement("tr");
  made.append(...texts.map((text) => make("td", text)));
  return made;
}

function swatch(number) {
  const made = make("span", "", { class: "swatch" });
  made.style.setProperty("--own", colourOf(number));
  return made;
}

/** The texts beside the map. */
class Panel {
  constructor(replay, go, called) {
    this.replay = replay;
    this.called = called;
    this.lines = replay.data.calls.map(({ line, kind, again }, call) => {
      const button = make("button", line, { type: "button" });
      const words = line.split(" ");
      button.style.setProperty("--own", colourOf(Number(words[kind === "move" || kind === "switch" ? 1 : 3])));
      button.classList.toggle("again", Boolean(again));
      button.dataset.call = call;
      return button;
    });
    part("calls").append(...this.lines);
    part("calls").style.setProperty("--calls", this.lines.length);
    part("calls").addEventListener("click", ({ target }) => {
      if (target.dataset.call) go(replay.data.calls[target.dataset.call].first);
    });
    this.rows = replay.data.starts.map((_, number) => {
      const made = row(["", "", "", ""]);
      made.cells[0].append(swatch(number), `subscriber ${number}`);
      return made;
    });
    part("subscribers").append(...this.rows);
  }

  show(moment, subscriber, pointed) {
    this.showVisit(moment);
    this.showFind(moment);
    this.showPassages(moment);
    this.showSubscribers(moment, subscriber);
    this.showUnderWay(moment);
    this.showNode(moment, pointed);
    this.showCall(moment.ticket);
  }

  showVisit({ ticket }) {
    const { replay } = this;
    if (ticket === OPENING) {
      say(part("ticket"), "The opening");
      say(part("sentence"), "Before any visit: each subscriber is at its start node, with its addresses at its homes.");
      for (const id of ["actor", "cell", "word", "part", "line"]) say(part(id), "-");
      return;
    }
    const [actor, call, cell, word] = [replay.visits.actor[ticket], replay.call(ticket), replay.cell(ticket), replay.word(ticket)];
    const puts = actor < replay.subscribers;
    const within = puts ? putText(word, call, cell) : lookText(PARTS[replay.visits.part[ticket]], cell);
    const whose = puts ? "" : ` of subscriber ${cell[1]}`;
    say(part("ticket"), `Ticket ${ticket} of 0 to ${replay.last}`);
    say(part("sentence"), puts
      ? `${replay.actorText(actor)} puts ${wordText(word)} into the ${cellText(cell)}: ${within}`
      : `${replay.actorText(actor)} reads ${wordText(word)} in the ${cellText(cell)}${whose}: ${within}`);
    say(part("actor"), replay.actorText(actor));
    say(part("cell"), `${cellText(cell)}${cell[0] === "entry" ? `, at leader ${this.called(replay.nodeOf(cell))}` : ""}`);
    say(part("word"), wordText(word));
    say(part("part"), within);
    say(part("line"), call.line);
  }

  showFind({ ticket }) {
    const { replay } = this;
    const finds = ticket !== OPENING && replay.visits.actor[ticket] >= replay.subscribers;
    part("find-card").hidden = !finds;
    if (!finds) return;
    const call = replay.call(ticket);
    const { known, weight, level } = replay.visits;
    say(part("find-of"), `subscriber ${call.sub}, from ${this.called(call.start)}`);
    say(part("known"), known[ticket] ?? "none");
    say(part("weight"), `${weight[ticket]}`);
    const done = call.last === ticket;
    say(part("level-met"), level[ticket] ?? (done ? "none" : "none yet"));
    const distance = done && !call.again ? `; the distance is ${call.distance}` : "";
    say(part("answer"), done ? `${answerText(call)}${distance}` : "none yet");
  }

  showPassages(moment) {
    const open = moment.subscribers.flatMap(({ passage }, number) => (passage ? [{ number, ...passage }] : []));
    const texts = open.map(({ number, start, to, weight }) => `subscriber ${number}, from ${start} to ${to}: weight ${weight}`);
    fill(part("passages"), texts.length ? texts : ["none"], (text) => make("li", text, { class: text === "none" ? "none" : "" }));
  }

  showSubscribers(moment, subscriber) {
    moment.subscribers.forEach(({ node, number, off }, which) => {
      const made = this.rows[which];
      say(made.cells[1], this.called(node));
      say(made.cells[2], `${number}`);
      say(made.cells[3], off ? "off" : "on");
      made.classList.toggle("own", which === subscriber);
    });
  }

  showUnderWay(moment) {
    const { known, weight } = this.replay.visits;
    const texts = [...moment.underWay].filter(([actor]) => actor >= this.replay.subscribers).map(([actor, { call, ticket }]) => {
      const { start, sub } = this.replay.data.calls[call];
      return `caller ${actor} from ${start} for subscriber ${sub}: known ${known[ticket] ?? "none"}, weight ${weight[ticket]}`;
    });
    fill(part("under-way"), texts.length ? texts.sort() : ["none"], (text) => make("li", text, { class: text === "none" ? "none" : "" }));
  }

  /** The cells at a node that aren't Empty and not nothing. */
  showNode(moment, node) {
    part("node-card").hidden = node === undefined;
    if (node === undefined) return;
    const { nodes, width } = this.replay.data.map;
    part("node-card").classList.toggle("right", nodes[node].x < width / 2);
    say(part("node-title"), `Cells at ${this.called(node)}`);
    say(part("node-rest"), "All other cells here are Empty, or have nothing.");
    const told = this.replay.cellsAt[node].map((cell) => [this.replay.data.cells[cell], moment.wordOf(cell, this.replay)]);
    const full = told.filter(([, word]) => word && word[0] !== "Empty" && word[0] !== "nothing");
    const rows = full.map(([cell, word]) => [cell[1], cellText(cell), wordText(word)]).sort(byPlaces);
    fill(part("node-cells"), rows, row);
  }

  showCall(ticket) {
    const now = ticket === OPENING ? undefined : this.lines[this.replay.visits.call[ticket]];
    if (this.current === now) return;
    this.current?.removeAttribute("aria-current");
    this.current = now;
    if (!now) return;
    now.setAttribute("aria-current", "true");
    cancelAnimationFrame(this.scrolling);
    this.scrolling = requestAnimationFrame(() => this.scrollTo(this.replay.visits.call[ticket]));
  }

  /** Brings the line of a call into sight, after the frame's other work. */
  scrollTo(call) {
    const list = part("calls");
    const top = call * LINE_HEIGHT;
    const seen = top >= list.scrollTop && top + LINE_HEIGHT <= list.scrollTop + list.clientHeight;
    if (!seen) list.scrollTop = top - (list.clientHeight - LINE_HEIGHT) / 2;
  }

  showLevel(level) {
    part("level-card").hidden = level === null;
    if (level === null) return;
    const { radius, clusters } = this.replay.data.levels[level];
    const leaders = [...new Set(clusters.map(({ leader }) => leader))].sort((a, b) => a - b);
    say(part("level-text"), `Level ${level}, radius ${radius}: ${clusters.length} cluster${clusters.length > 1 ? "s" : ""}, `
      + `led by ${leaders.map((leader) => this.called(leader)).join(", ")}. A ring is a leader.`);
  }
}

/** Rows by subscriber, and the cells of each with presences first and then entries by level and cluster. */
function byPlaces([one, cell], [other, another]) {
  return one - other || another.localeCompare(cell, "en", { numeric: true }) * (cell[0] === another[0] ? -1 : 1);
}

/** Goes from ticket to ticket, and keeps what is chosen. */
class Player {
  constructor(replay) {
    this.replay = replay;
    this.map = new NetworkMap(part("map"), replay, (node, held) => this.point(node, held));
    this.panel = new Panel(replay, (ticket) => this.go(ticket), (node) => this.map.called(node));
    this.strip = new Timeline({ canvas: part("strip"), mark: part("strip-mark"), rows: part("rows") }, replay, (ticket) => this.go(ticket));
    this.ticket = OPENING;
    this.panel.showLevel(null);
    this.begins = replay.data.calls.map(({ first }) => first).sort((a, b) => a - b);
    this.setUp();
    this.listen();
  }

  setUp() {
    const { data, last, subscribers } = this.replay;
    const calls = data.calls.length;
    const some = (count, what) => `${count} ${what}${count === 1 ? "" : "s"}`;
    say(part("summary"), [some(data.map.nodes.length, "node"), some(data.levels.length, "level"), some(subscribers, "subscriber"),
      some(data.callers, "caller"), some(calls, "call"), some(last + 1, "visit")].join(", ")
      + `; k ${data.k}${data.mean ? ", over mean covers" : ""}`);
    part("slider").max = part("number").max = last;
    const choose = (id, count, text) => part(id).append(...Array.from({ length: count }, (_, at) => make("option", text(at), { value: at })));
    choose("level", data.levels.length, (level) => `${level}, radius ${data.levels[level].radius}`);
    choose("focus", subscribers, (number) => `subscriber ${number}`);
    choose("node", data.map.nodes.length, (node) => this.map.called(node));
  }

  listen() {
    const { last } = this.replay;
    part("slider").addEventListener("input", ({ target }) => this.go(Number(target.value)));
    part("number").addEventListener("change", ({ target }) => this.go(target.value === "" ? OPENING : Number(target.value)));
    part("first").addEventListener("click", () => this.go(OPENING));
    part("back").addEventListener("click", () => this.go(this.ticket - 1));
    part("on").addEventListener("click", () => this.go(this.ticket + 1));
    part("end").addEventListener("click", () => this.go(last));
    part("play").addEventListener("click", () => this.play(!this.playing));
    part("focus").addEventListener("change", () => this.show());
    part("level").addEventListener("change", ({ target }) => this.showLevel(target.value));
    part("node").addEventListener("change", ({ target }) => this.point(target.value || undefined, true));
    addEventListener("keydown", (event) => this.key(event));
    addEventListener("hashchange", ({ newURL }) => this.follow(new URL(newURL).hash));
  }

  /** Goes to the ticket that an address of the page names by its hash. */
  follow(hash) {
    const named = hash.slice(1);
    this.go(/^\d+$/.test(named) ? Number(named) : OPENING);
  }

  key(event) {
    const { target, key, ctrlKey, altKey, metaKey } = event;
    if (ctrlKey || altKey || metaKey || target.matches("select, input[type=number]")) return;
    if (key === " " && target.matches("button, summary")) return;
    const keys = {
      ArrowRight: () => this.go(this.ticket + 1),
      ArrowLeft: () => this.go(this.ticket - 1),
      PageDown: () => this.go(this.begins.find((first) => first > this.ticket) ?? this.replay.last),
      PageUp: () => this.go(this.begins.findLast((first) => first < this.ticket) ?? OPENING),
      Home: () => this.go(OPENING),
      End: () => this.go(this.replay.last),
      " ": () => this.play(!this.playing),
      l: () => this.nextLevel(),
      L: () => this.nextLevel(),
      Escape: () => this.point(undefined, true),
    };
    if (!keys[key]) return;
    event.preventDefault();
    keys[key]();
  }

  nextLevel() {
    const choice = part("level");
    choice.selectedIndex = (choice.selectedIndex + 1) % choice.options.length;
    this.showLevel(choice.value);
  }

  showLevel(value) {
    const level = value === "" ? null : Number(value);
    this.map.showLevel(level);
    this.panel.showLevel(level);
    this.show();
  }

  /** A node is pointed at, or held by a click until another one is. */
  point(node, held) {
    const value = node === undefined ? undefined : Number(node);
    if (held) {
      this.held = value;
      part("node").value = value ?? "";
    }
    const pointed = held ? value : value ?? this.held;
    if (pointed === this.pointed) return;
    this.pointed = pointed;
    this.show();
  }

  go(ticket) {
    const next = Math.min(this.replay.last, Math.max(OPENING, Math.trunc(ticket) || 0));
    if (next === this.replay.last) this.play(false);
    this.ticket = next;
    this.show();
  }

  play(on) {
    if (on && this.ticket === this.replay.last) this.ticket = OPENING;
    this.playing = on;
    say(part("play"), on ? "Stop" : "Play");
    part("sentence").setAttribute("aria-live", on ? "off" : "polite");
    cancelAnimationFrame(this.frame);
    if (!on) return;
    let [then, owed] = [performance.now(), 0];
    const tick = (now) => {
      owed += ((now - then) * Number(part("speed").value)) / 1000;
      then = now;
      const steps = Math.floor(owed);
      owed -= steps;
      this.frame = requestAnimationFrame(tick);
      if (steps) this.go(this.ticket + steps);
    };
    this.frame = requestAnimationFrame(tick);
  }

  /** The subscriber whose cells are drawn: the chosen one, or that of the visit. */
  subscriber() {
    const chosen = part("focus").value;
    if (chosen !== "") return Number(chosen);
    return this.ticket === OPENING ? 0 : this.replay.cell(this.ticket)[1];
  }

  show() {
    const [moment, subscriber] = [this.replay.at(this.ticket), this.subscriber()];
    say(part("map-of"), `subscriber ${subscriber}`);
    this.map.show(moment, subscriber, this.pointed);
    this.panel.show(moment, subscriber, this.pointed);
    this.strip.show(this.ticket);
    part("slider").value = this.ticket;
    part("slider").setAttribute("aria-valuetext", part("ticket").textContent);
    if (document.activeElement !== part("number")) part("number").value = this.ticket === OPENING ? "" : this.ticket;
    clearTimeout(this.settled);
    this.settled = setTimeout(() => history.replaceState(null, "", this.ticket === OPENING ? "#opening" : `#${this.ticket}`), 120);
  }
}

new Player(new Replay(JSON.parse(part("data").textContent))).follow(location.hash);
