// What stands through a ticket: the cells, the subscribers, and the calls under way. Nothing here knows of the page.

/** Before any visit. Ticket t stands for the moment through t, its visit with it. */
const OPENING = -1;

/** What a find looks at: the presence at its origin, the entries of its climb, or the presences of its chase. */
const PARTS = [null, "origin", "climb", "chase"];

/** The replay: visits column by column, with tables of cells, words and calls. */
class Replay {
  constructor(data) {
    this.data = data;
    this.visits = data.visits;
    this.last = data.visits.actor.length - 1;
    this.subscribers = data.starts.length;
    this.actors = this.subscribers + data.callers;
    this.cellsOf = groups(this.subscribers, data.cells, ([, subscriber]) => subscriber);
    this.cellsAt = groups(data.map.nodes.length, data.cells, (cell) => this.nodeOf(cell));
    this.ticketsOf = groups(data.calls.length, data.visits.call, (call) => call);
    this.spacing = Math.max(256, Math.ceil(this.last / 64));
    this.kept = [Moment.opening(this)];
    this.now = this.kept[0].copy();
  }

  /** The node at which a cell lies. */
  nodeOf([kind, , place]) {
    return kind === "presence" ? place : this.leader(...place);
  }

  actorText(actor) {
    return actor < this.subscribers ? `subscriber ${actor}` : `caller ${actor}`;
  }

  leader(level, cluster) {
    return this.data.levels[level].clusters[cluster].leader;
  }

  cell(ticket) {
    return this.data.cells[this.visits.cell[ticket]];
  }

  word(ticket) {
    return this.data.words[this.visits.word[ticket]];
  }

  call(ticket) {
    return this.data.calls[this.visits.call[ticket]];
  }

  /** The moment through a ticket: on from the last one that was asked for, or from the nearest one that was kept. */
  at(ticket) {
    const kept = this.kept[Math.min(Math.floor((ticket + 1) / this.spacing), this.kept.length - 1)];
    if (this.now.ticket > ticket || this.now.ticket < kept.ticket) this.now = kept.copy();
    while (this.now.ticket < ticket) {
      this.now.take(this);
      if (this.now.ticket + 1 === this.spacing * this.kept.length) this.kept.push(this.now.copy());
    }
    return this.now;
  }

  /** The tickets of the find's looks up to a ticket. */
  looks(call, ticket) {
    const tickets = this.ticketsOf[call];
    let count = tickets.length;
    while (count > 0 && tickets[count - 1] > ticket) count -= 1;
    return tickets.slice(0, count);
  }

  /** The ways that a find has paid up to a ticket: from, to, and what for. */
  ways(call, ticket) {
    const { start, last } = this.data.calls[call];
    const ways = [];
    for (const look of this.looks(call, ticket)) {
      const node = this.nodeOf(this.cell(look));
      const [kind, , next] = this.word(look);
      const part = PARTS[this.visits.part[look]];
      if (part === "climb") ways.push({ from: start, to: node, kind: kind === "address" ? "hit" : "miss" });
      const leadsOn = next !== undefined && look !== last && !(part === "origin" && kind === "Gone");
      if (leadsOn) ways.push({ from: node, to: next, kind: "hop" });
    }
    return ways.filter(({ from, to }) => from !== to);
  }
}

/** For each key below the count the places of the values that have it, ascending. */
function groups(count, values, keyOf) {
  const found = Array.from({ length: count }, () => []);
  values.forEach((value, place) => found[keyOf(value)].push(place));
  return found;
}

/** All that stands through one ticket. */
class Moment {
  constructor(ticket, words, subscribers, underWay) {
    this.ticket = ticket;
    this.words = words;
    this.subscribers = subscribers;
    this.underWay = underWay;
  }

  static opening(replay) {
    const subscribers = replay.data.starts.map((node) => ({ node, number: 0, off: false, passage: null }));
    return new Moment(OPENING, new Map(replay.data.opening), subscribers, new Map());
  }

  copy() {
    const subscribers = this.subscribers.map((subscriber) => ({ ...subscriber }));
    return new Moment(this.ticket, new Map(this.words), subscribers, new Map(this.underWay));
  }

  /** The next visit happens. */
  take(replay) {
    this.ticket += 1;
    const { actor, call, cell, word } = replay.visits;
    const who = actor[this.ticket];
    if (who < replay.subscribers) {
      this.words.set(cell[this.ticket], word[this.ticket]);
      this.stand(this.subscribers[who], replay);
    }
    if (replay.call(this.ticket).last === this.ticket) this.underWay.delete(who);
    else this.underWay.set(who, { call: call[this.ticket], ticket: this.ticket });
  }

  /** What a put changes of where its subscriber stands. */
  stand(subscriber, replay) {
    const [kind, number, node] = replay.word(this.ticket);
    if (kind === "Gone") {
      const { start, to, weight } = replay.call(this.ticket);
      Object.assign(subscriber, { node, number, passage: { start, to, weight } });
    } else if (kind === "Here") {
      Object.assign(subscriber, { off: false, passage: null });
    } else if (kind === "Off") {
      subscriber.off = true;
    }
  }

  /** The word of a cell, or none where nothing was ever put there. */
  wordOf(cell, replay) {
    const word = this.words.get(cell);
    return word === undefined ? null : replay.data.words[word];
  }
}

/** A word as the pages say it. */
function wordText([kind, number, node]) {
  switch (kind) {
    case "Gone": return `Gone ${number}, to ${node}`;
    case "Coming": return `Coming ${number}, from ${node}`;
    case "address": return `address ${number}, node ${node}`;
    default: return number === undefined ? kind : `${kind} ${number}`;
  }
}

function cellText([kind, , place]) {
  return kind === "presence" ? `presence at ${place}` : `entry of level ${place[0]}, cluster ${place[1]}`;
}

/** What a put is within its step. */
function putText([kind], call, [, , place]) {
  if (call.kind === "switch") return kind === "Off" ? "switches off" : "switches on";
  switch (kind) {
    case "Coming": return "the move begins";
    case "address": return `renews level ${place[0]}`;
    case "Gone": return "the commit";
    case "Here": return "the confirm";
    case "nothing": return `erases the old address of level ${place[0]}`;
    default: return "the purge";
  }
}

/** What a look is within its find. */
function lookText(part, [, , place]) {
  if (part === "origin") return "at the origin";
  return part === "climb" ? `the climb, level ${place[0]}` : "the chase";
}

/** What has become of a find by its last look, in the words of its line. */
function answerText(call) {
  const [, answer] = call.line.match(/^\w+ \d+ \d+ \d+ (.*?) (?:level|weight) /);
  const word = call.line.split(" ")[0];
  return word === "find" ? answer : `${word}: ${answer}`;
}
