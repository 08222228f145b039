// The network as a picture, and what stands in it.

const SVG = "http://www.w3.org/2000/svg";
const FEW_NODES = 40; // with all of their names
const FEW_EDGES = 40; // with their weights
const SHORT = 90; // too short for a weight
const LAYERS = ["shades", "passages", "edges", "trail", "ways", "nodes", "rings", "weights", "tokens", "labels", "words"];
const SHARES = [0.5, 0.42, 0.58, 0.34, 0.66, 0.27, 0.73]; // of an edge, where its weight may stand
const BENDS = [34, -34, 52, -52, 20, -20, 72, -72]; // beside a way, where its words may stand

function shape(parent, name, attributes = {}) {
  const made = document.createElementNS(SVG, name);
  for (const [key, value] of Object.entries(attributes)) made.setAttribute(key, value);
  parent.append(made);
  return made;
}

/** Changes a text only where it is another one. */
function say(element, text) {
  if (element.textContent !== text) element.textContent = text;
}

/** The colour of a subscriber. Clusters have more colours than these eight. */
function colourOf(number) {
  return `var(--colour-${number % 8})`;
}

/** How a place beside the middle of a way is reached, so far to its left (to its right where that is negative). */
function beside(from, to, aside) {
  const [across, down] = [to.x - from.x, to.y - from.y];
  const length = Math.hypot(across, down) || 1;
  return { x: (from.x + to.x) / 2 - (down / length) * aside, y: (from.y + to.y) / 2 + (across / length) * aside };
}

/** The place at a share of a way that is bent towards another place. */
function along(from, bent, to, share) {
  const rest = 1 - share;
  const mean = (one, middle, other) => rest * rest * one + 2 * share * rest * middle + share * share * other;
  return { x: mean(from.x, bent.x, to.x), y: mean(from.y, bent.y, to.y) };
}

/** A bent arrow between two places, as the text of a path; its head stops short of the place by a gap. */
function arrow(from, to, bend, gap) {
  const length = Math.hypot(to.x - from.x, to.y - from.y) || 1;
  const head = Math.min(9, length / 5);
  const middle = beside(from, to, Math.min(bend, length / 2));
  const back = Math.hypot(to.x - middle.x, to.y - middle.y) || 1;
  const [u, v] = [(to.x - middle.x) / back, (to.y - middle.y) / back];
  const short = Math.min(gap, length / 3);
  const tip = { x: to.x - u * short, y: to.y - v * short };
  const point = ({ x, y }) => `${x.toFixed(1)} ${y.toFixed(1)}`;
  const wing = (side) => point({ x: tip.x - head * (u + (side * v) / 2), y: tip.y - head * (v - (side * u) / 2) });
  return `M${point(from)}Q${point(middle)} ${point(tip)}M${wing(1)}L${point(tip)}L${wing(-1)}`;
}

/** As many shapes of one kind as are needed at a moment, each updated where its item is another; the others are hidden. */
class Pool {
  constructor(layer, make) {
    this.layer = layer;
    this.make = make;
    this.shapes = [];
  }

  show(items, update) {
    while (this.shapes.length < items.length) this.shapes.push(this.make(this.layer));
    this.shapes.forEach((one, at) => {
      const hidden = at >= items.length;
      if (one.hidden !== hidden) one.style.display = (one.hidden = hidden) ? "none" : "";
      const key = hidden ? one.key : JSON.stringify(items[at]);
      if (one.key === key) return;
      one.key = key;
      update(one, items[at], at);
    });
  }
}

class NetworkMap {
  constructor(svg, replay, pointed) {
    this.replay = replay;
    this.places = replay.data.map.nodes;
    svg.setAttribute("viewBox", `0 0 ${replay.data.map.width} ${replay.data.map.height}`);
    this.radius = this.places.length > 300 ? 4 : this.places.length > FEW_NODES ? 5.5 : 9;
    this.layers = {};
    for (const name of LAYERS) this.layers[name] = shape(svg, "g", { class: name });
    this.rooms = this.roomsOfNames();
    this.drawEdges();
    this.drawNodes();
    this.paths = {};
    for (const [layer, kinds] of [["trail", ["gone", "coming"]], ["ways", ["miss", "hit", "hop"]], ["passages", ["passage"]]]) {
      for (const kind of kinds) this.paths[kind] = shape(this.layers[layer], "path", { class: kind });
    }
    this.ring = shape(this.layers.rings, "circle", { class: "visited", r: this.radius + 6 });
    this.callout = this.makeCallout();
    this.badges = new Pool(this.layers.tokens, (layer) => shape(layer, "text", { class: "badge", "text-anchor": "middle" }));
    this.others = new Pool(this.layers.tokens, (layer) => shape(layer, "circle", { class: "other", r: 4 }));
    this.steps = new Pool(this.layers.words, (layer) => shape(layer, "text", { class: "step", "text-anchor": "middle" }));
    this.weights = new Pool(this.layers.words, (layer) => shape(layer, "text", { class: "passage-weight", "text-anchor": "middle" }));
    this.listen(svg, pointed);
    this.level = null;
  }

  drawEdges() {
    const { edges } = this.replay.data.map;
    this.edgeWeights = [];
    for (const [a, b, weight] of edges) {
      const [one, other] = [this.places[a], this.places[b]];
      shape(this.layers.edges, "line", { x1: one.x, y1: one.y, x2: other.x, y2: other.y });
      const short = Math.hypot(one.x - other.x, one.y - other.y) < SHORT;
      if (edges.length > FEW_EDGES || short) continue;
      const { x, y } = this.roomOn(one, other, `${weight}`);
      const text = shape(this.layers.weights, "text", { x, y: y + 4, class: "edge-weight", "text-anchor": "middle" });
      text.textContent = weight;
      this.edgeWeights.push(text);
    }
  }

  /** The places of names, each at one side of its node: above it, or the first side on which it meets the fewest of the names
      before it and of other nodes. Above many nodes, of whose names few are shown. */
  roomsOfNames() {
    const few = this.places.length <= FEW_NODES;
    const dots = this.places.map(({ x, y }) => ({ x, y: y + 4, half: this.radius }));
    const taken = [];
    return this.places.map(({ x, y }, node) => {
      const half = 3.8 * this.called(node).length;
      const [far, up, down] = [half + this.radius + 3, y - this.radius - 6, y + this.radius + 15];
      const rooms = [{ x, y: up }, { x, y: down }, { x: x + far, y: y + 4 }, { x: x - far, y: y + 4 }, { x: x + far - 8, y: up + 4 },
        { x: x - far + 8, y: up + 4 }, { x: x + far - 8, y: down - 4 }, { x: x - far + 8, y: down - 4 }].map((room) => ({ ...room, half }));
      const meets = (room) => [...dots, ...taken].filter((other) =>
        Math.abs(other.x - room.x) < other.half + half && Math.abs(other.y - room.y) < 13).length
        + (this.isOutside(room) ? 1 : 0);
      const best = few ? rooms.reduce((one, room) => (meets(room) < meets(one) ? room : one)) : rooms[0];
      taken.push(best);
      return best;
    });
  }

  /** Whether a name reaches beyond the picture. */
  isOutside({ x, y, half }) {
    const { width, height } = this.replay.data.map;
    return x < half || x + half > width || y < 12 || y + 4 > height;
  }

  /** The place of an edge's weight: its middle, or the first beside it where no name of a node and no other weight stands. */
  roomOn(one, other, weight) {
    const names = this.rooms.map(({ x, y, half }) => ({ x, y: y - 4, half }));
    const weights = this.edgeWeights.map((text) => (
      { x: Number(text.getAttribute("x")), y: Number(text.getAttribute("y")) - 4, half: 3.5 * text.textContent.length }));
    const wanted = SHARES.map((share) => ({ x: one.x + share * (other.x - one.x), y: one.y + share * (other.y - one.y) }));
    const isFree = ({ x, y }) => [...names, ...weights].every((word) =>
      Math.abs(word.x - x) > word.half + 3.5 * weight.length + 2 || Math.abs(word.y - y) > 14);
    return wanted.find(isFree) ?? wanted[0];
  }

  drawNodes() {
    this.dots = this.places.map(({ x, y }, node) => {
      const dot = shape(this.layers.nodes, "circle", { cx: x, cy: y, r: this.radius, class: "node" });
      dot.dataset.node = node;
      return dot;
    });
    this.names = this.rooms.map(({ x, y }, node) => {
      const label = shape(this.layers.labels, "text", { x, y, "text-anchor": "middle" });
      label.textContent = this.called(node);
      return label;
    });
  }

  makeCallout() {
    const group = shape(this.layers.words, "g", { class: "callout" });
    return { group, box: shape(group, "rect", { rx: 6, height: 24 }), text: shape(group, "text", { y: 17, x: 8 }) };
  }

  /** A node under the pointer, or a click on one, is told. */
  listen(svg, pointed) {
    const nodeOf = (event) => event.target.dataset?.node;
    svg.addEventListener("pointerover", (event) => pointed(nodeOf(event), false));
    svg.addEventListener("pointerleave", () => pointed(undefined, false));
    svg.addEventListener("click", (event) => pointed(nodeOf(event), true));
  }

  called(node) {
    const { name } = this.places[node];
    return name ? `${node} ${name}` : `${node}`;
  }

  /** The clusters of a level as shades, or none. */
  showLevel(level) {
    this.level = level;
    this.layers.shades.replaceChildren();
    if (level === null) return;
    this.replay.data.levels[level].clusters.forEach((cluster, number) => {
      const shade = shape(this.layers.shades, "g", { class: "cluster" });
      const stroke = `var(--colour-${cluster.colour})`;
      const width = Math.max(this.radius * 2, this.radius * 5 - 8 * cluster.phase);
      shape(shade, "title").textContent = `cluster ${number}, led by ${cluster.leader}`;
      for (const [a, b] of cluster.tree) {
        const [one, other] = [this.places[a], this.places[b]];
        shape(shade, "line", { x1: one.x, y1: one.y, x2: other.x, y2: other.y, stroke, "stroke-width": width });
      }
      for (const node of cluster.members) {
        shape(shade, "circle", { cx: this.places[node].x, cy: this.places[node].y, r: width / 2, fill: stroke });
      }
    });
    for (const { leader, colour } of this.replay.data.levels[level].clusters) {
      const { x, y } = this.places[leader];
      shape(this.layers.shades, "circle", { cx: x, cy: y, r: this.radius + 4, class: "leader", stroke: `var(--colour-${colour})` });
    }
  }

  /** Draws a moment: the cells of one subscriber, where all stand, and the visit. */
  show(moment, subscriber, pointed) {
    const marks = this.marksOf(moment, subscriber);
    this.showMarks(marks, moment, subscriber);
    this.showPassages(moment);
    this.showAddresses(moment, subscriber);
    this.showOthers(moment, subscriber);
    this.showNames(moment, subscriber, pointed);
    this.showVisit(moment);
  }

  /** The marks of a subscriber, by node, where they aren't Empty. */
  marksOf(moment, subscriber) {
    const marks = new Map();
    for (const cell of this.replay.cellsOf[subscriber]) {
      const [kind, , node] = this.replay.data.cells[cell];
      const word = kind === "presence" ? moment.wordOf(cell, this.replay) : null;
      if (word && word[0] !== "Empty") marks.set(node, word);
    }
    return marks;
  }

  showMarks(marks, moment, subscriber) {
    const trail = { Gone: [], Coming: [] };
    this.dots.forEach((dot, node) => {
      const [kind, , other] = marks.get(node) ?? ["Empty"];
      const state = kind === "Empty" ? kind : `${kind} of ${subscriber}`;
      if (dot.state !== state) {
        dot.state = state;
        dot.setAttribute("class", `node ${kind}`);
        if (kind !== "Empty") dot.style.setProperty("--own", colourOf(subscriber));
      }
      if (trail[kind]) trail[kind].push(arrow(this.places[node], this.places[other], 10, this.radius + 4));
    });
    this.draw("gone", trail.Gone.join(""), subscriber);
    this.draw("coming", trail.Coming.join(""), subscriber);
  }

  draw(kind, path, subscriber) {
    const drawn = this.paths[kind];
    if (drawn.path !== path) drawn.setAttribute("d", (drawn.path = path));
    if (subscriber !== undefined) drawn.style.setProperty("--own", colourOf(subscriber));
  }

  showPassages(moment) {
    const open = moment.subscribers.map(({ passage }) => passage).filter(Boolean);
    this.draw("passage", open.map(({ start, to }) => arrow(this.places[start], this.places[to], 0, this.radius + 8)).join(""));
    this.weights.show(open, (text, { start, to, weight }) => {
      const words = `passage ${weight}`;
      this.put(text, this.roomBeside(this.places[start], this.places[to], words));
      say(text, words);
    });
  }

  /** Where words on a way stand: beside its middle, the first place where they cover the fewest words and nodes. */
  roomBeside(one, other, words) {
    const half = 3.6 * words.length + 2;
    const covered = [...boxesOf([...this.names, ...this.edgeWeights]), ...this.boxesOfNodes()];
    const meets = ({ x, y }) => covered.filter(({ left, right, top, bottom }) =>
      x - half < right && left < x + half && y - 9 < bottom && top < y + 8).length + (this.isOutside({ x, y, half }) ? 1 : 0);
    const rooms = BENDS.map((bend) => beside(one, other, bend));
    return rooms.reduce((best, room) => (meets(room) < meets(best) ? room : best));
  }

  put(text, { x, y }) {
    text.setAttribute("x", x.toFixed(1));
    text.setAttribute("y", (y + 4).toFixed(1));
  }

  /** At each leader the levels that have an address of the subscriber there. */
  showAddresses(moment, subscriber) {
    const levels = new Map();
    for (const cell of this.replay.cellsOf[subscriber]) {
      const [kind, , place] = this.replay.data.cells[cell];
      if (kind !== "entry" || moment.wordOf(cell, this.replay)?.[0] !== "address") continue;
      const leader = this.replay.leader(...place);
      levels.set(leader, [...(levels.get(leader) ?? []), place[0]]);
    }
    const items = [...levels].map(([node, some]) => [node, ranges(some), subscriber]);
    this.badges.show(items, (badge, [node, some]) => {
      const { x, y } = this.places[node];
      badge.setAttribute("x", x);
      badge.setAttribute("y", this.rooms[node].y > y + this.radius ? y - this.radius - 6 : y + this.radius + 15);
      badge.style.setProperty("--own", colourOf(subscriber));
      say(badge, `@ ${some}`);
    });
  }

  /** Where the other subscribers stand, as dots round the node. */
  showOthers(moment, subscriber) {
    const standing = moment.subscribers.map(({ node, off }, actor) => ({ node, off, actor }));
    const others = standing.filter(({ actor }) => actor !== subscriber);
    this.others.show(others, (dot, { actor, node, off }) => {
      const turn = 2.4 * actor;
      dot.setAttribute("cx", this.places[node].x + (this.radius + 5) * Math.cos(turn));
      dot.setAttribute("cy", this.places[node].y + (this.radius + 5) * Math.sin(turn));
      dot.setAttribute("class", off ? "other off" : "other");
      dot.style.setProperty("--own", colourOf(actor));
    });
  }

  /** The visit's node and word, and the way of its find. */
  showVisit({ ticket }) {
    const some = ticket !== OPENING;
    this.ring.style.display = this.callout.group.style.display = some ? "" : "none";
    const finds = some && this.replay.visits.actor[ticket] >= this.replay.subscribers;
    const ways = finds ? this.replay.ways(this.replay.visits.call[ticket], ticket) : [];
    for (const kind of ["miss", "hit", "hop"]) {
      const own = ways.map((way, at) => ({ ...way, at })).filter((way) => way.kind === kind);
      this.draw(kind, own.map((way) => this.wayPath(way)).join(""));
    }
    this.steps.show(ways, (text, way, at) => this.labelWay(text, way, at));
    if (!some) return;
    const { x, y } = this.places[this.replay.nodeOf(this.replay.cell(ticket))];
    this.ring.setAttribute("cx", x);
    this.ring.setAttribute("cy", y);
    this.sayAt(x, y, wordText(this.replay.word(ticket)), finds);
  }

  /** Ways of a find are bent by their turn, so that one there and back is two. */
  wayPath({ from, to, at }) {
    return arrow(this.places[from], this.places[to], 24 + 6 * (at % 4), this.radius + 5);
  }

  labelWay(text, { from, to, kind }, at) {
    const [one, other] = [this.places[from], this.places[to]];
    const bend = Math.min(24 + 6 * (at % 4), Math.hypot(other.x - one.x, other.y - one.y) / 2);
    this.put(text, along(one, beside(one, other, bend), other, 0.3));
    text.setAttribute("class", `step ${kind}`);
    say(text, `${at + 1}`);
  }

  /** A box with the visit's word beside its node, inside the picture, where it covers the fewest words and nodes. */
  sayAt(x, y, words, finds) {
    const { group, box, text } = this.callout;
    const width = 16 + 7.6 * words.length;
    const { left, top } = this.roomFor(x, y, width, this.covered());
    group.setAttribute("transform", `translate(${left.toFixed(1)} ${top.toFixed(1)})`);
    group.setAttribute("class", finds ? "callout look" : "callout put");
    box.setAttribute("width", width.toFixed(1));
    say(text, words);
  }

  /** What a box should leave free: the words that are seen, and the nodes. */
  covered() {
    const texts = [this.names, this.edgeWeights, this.badges.shapes, this.steps.shapes, this.weights.shapes].flat();
    return [...boxesOf(texts.filter(({ hidden }) => !hidden)), ...this.boxesOfNodes()];
  }

  boxesOfNodes() {
    const { radius } = this;
    return this.places.map(({ x, y }) => ({ left: x - radius, right: x + radius, top: y - radius, bottom: y + radius }));
  }

  /** Where a box of a width is put near a place: of some places round it the first that covers least. */
  roomFor(x, y, width, covered) {
    const { width: most, height } = this.replay.data.map;
    const [high, gap] = [24, this.radius + 20];
    const [below, above, beside] = [y + gap, y - gap - high - 6, y - high / 2];
    const [right, left] = [x + gap, x - gap - width];
    const wanted = [[x - width / 2, below], [x - width / 2, above], [right, beside], [left, beside], [right, below], [left, below],
      [right, above], [left, above], [x - width / 2, below + 28], [x - width / 2, above - 28], [right + 40, beside], [left - 40, beside]];
    const within = (value, end) => Math.min(Math.max(value, 4), end - 4);
    const rooms = wanted.map(([across, down]) => ({ left: within(across, most - width), top: within(down, height - high) }));
    const meets = ({ left: l, top: t }) => covered.filter((other) =>
      l < other.right && other.left < l + width && t < other.bottom && other.top < t + high).length;
    return rooms.reduce((best, room) => (meets(room) < meets(best) ? room : best));
  }

  /** All names where nodes are few; else those of the visit, of where the subscriber stands, of ends and of leaders. */
  showNames(moment, subscriber, pointed) {
    const few = this.places.length <= FEW_NODES;
    const shown = new Set([moment.subscribers[subscriber].node, pointed]);
    if (!few && moment.ticket !== OPENING) this.endsOf(moment.ticket).forEach((node) => shown.add(node));
    if (!few && this.level !== null) this.replay.data.levels[this.level].clusters.forEach(({ leader }) => shown.add(leader));
    this.names.forEach((label, node) => {
      const hidden = !few && !shown.has(node);
      if (label.hidden !== hidden) label.style.display = (label.hidden = hidden) ? "none" : "";
    });
  }

  endsOf(ticket) {
    const { start, to, at } = this.replay.call(ticket);
    return [this.replay.nodeOf(this.replay.cell(ticket)), start, to, at].filter((node) => node !== undefined);
  }
}

/** What words cover. */
function boxesOf(texts) {
  return texts.map((one) => {
    const [x, y, half] = [Number(one.getAttribute("x")), Number(one.getAttribute("y")), 3.6 * one.textContent.length + 2];
    return { left: x - half, right: x + half, top: y - 13, bottom: y + 4 };
  });
}

/** Ascending numbers with runs as ranges: 0-3, 5. */
function ranges(numbers) {
  const runs = [];
  for (const number of [...new Set(numbers)].sort((a, b) => a - b)) {
    const run = runs.at(-1);
    if (run && run[1] + 1 === number) run[1] = number;
    else runs.push([number, number]);
  }
  return runs.map(([first, last]) => (first === last ? `${first}` : `${first}-${last}`)).join(", ");
}
