// Who did what at which ticket, all in one strip: a row for each actor, a dot for each visit, a bar for each call.

const ROW = { least: 1, most: 14, named: 10, all: 150 };

class Timeline {
  constructor({ canvas, mark, rows }, replay, go) {
    this.canvas = canvas;
    this.mark = mark;
    this.replay = replay;
    this.rowHeight = Math.min(ROW.most, Math.max(ROW.least, ROW.all / replay.actors));
    if (this.rowHeight >= ROW.named) this.nameRows(rows);
    canvas.addEventListener("pointerdown", (event) => {
      canvas.setPointerCapture(event.pointerId);
      go(this.ticketAt(event));
    });
    canvas.addEventListener("pointermove", (event) => {
      if (event.buttons) go(this.ticketAt(event));
    });
    new ResizeObserver(() => this.draw()).observe(canvas.parentElement);
    matchMedia("(prefers-color-scheme: dark)").addEventListener("change", () => this.draw());
  }

  nameRows(rows) {
    for (let actor = 0; actor < this.replay.actors; actor += 1) {
      const name = document.createElement("div");
      name.textContent = this.replay.actorText(actor);
      name.style.height = `${this.rowHeight}px`;
      rows.append(name);
    }
  }

  /** The left edge of a ticket's column; the opening has a column of its own before ticket 0. */
  x(ticket) {
    return ((ticket + 1) * this.width) / (this.replay.last + 2);
  }

  ticketAt(event) {
    const share = event.offsetX / this.canvas.clientWidth;
    return Math.min(this.replay.last, Math.max(OPENING, Math.floor(share * (this.replay.last + 2)) - 1));
  }

  draw() {
    const ratio = devicePixelRatio;
    this.width = this.canvas.parentElement.clientWidth;
    this.height = Math.max(this.rowHeight * this.replay.actors, 8);
    this.canvas.width = this.width * ratio;
    this.canvas.height = this.height * ratio;
    this.canvas.style.height = `${this.height}px`;
    const context = this.canvas.getContext("2d");
    context.scale(ratio, ratio);
    this.readColours();
    this.drawCalls(context);
    this.drawVisits(context);
    this.show(this.ticket ?? OPENING);
  }

  drawCalls(context) {
    context.globalAlpha = 0.28;
    for (const call of this.replay.data.calls) {
      context.fillStyle = this.colour(call);
      context.fillRect(this.x(call.first), this.top(call.actor), this.x(call.last + 1) - this.x(call.first), this.rowHeight * 0.84);
    }
    context.globalAlpha = 1;
  }

  drawVisits(context) {
    const column = Math.max(1, Math.min(this.width / (this.replay.last + 2) - 1, this.rowHeight * 0.6));
    for (let ticket = 0; ticket <= this.replay.last; ticket += 1) {
      const call = this.replay.call(ticket);
      context.fillStyle = call.commit === ticket ? this.colours.commit : this.colour(call);
      const middle = (this.x(ticket) + this.x(ticket + 1)) / 2;
      context.fillRect(middle - column / 2, this.top(call.actor) + this.rowHeight * 0.12, column, this.rowHeight * 0.6);
    }
  }

  top(actor) {
    return actor * this.rowHeight;
  }

  readColours() {
    const style = getComputedStyle(this.canvas);
    const [find, move, change, again] = [0, 1, 2, 5].map((number) => style.getPropertyValue(`--colour-${number}`));
    this.colours = { find, move, switch: change, again, commit: style.color };
  }

  colour({ kind, again }) {
    return again ? this.colours.again : this.colours[kind];
  }

  show(ticket) {
    this.ticket = ticket;
    this.mark.style.transform = `translateX(${((this.x(ticket) + this.x(ticket + 1)) / 2).toFixed(1)}px)`;
  }
}
