// Draws a log: a row for each claim and each instruction that runs solo, a column for each cycle.
// Colours only help: each kind of cell has a letter or a mark of its own, what runs solo is hatched, and a flush has a flag.

/** The sizes of a cell in pixels, from the smallest on; from LETTERS on a cell has its letter and a row its name. */
const SIZES = [2, 4, 7, 11, 15, 19, 24, 30];
const LETTERS = 11;

/** How wide the names may be, and how high the line of cycles is. */
const NAMES_AT_MOST = 250;
const RULER = 22;

/** No element may be larger than this in any browser; beyond it a pixel of scrolling stands for more than one of the picture. */
const LARGEST = 15000000;

/** Which colours a letter has: the cell's, and the letter's on it. */
const PAINTS = {
  A: ["--accept", "--ink"], S: ["--accept", "--ink"], F: ["--early", "--ink"], D: ["--early", "--ink"], O: ["--middle", "--ink"],
  X: ["--middle", "--ink"], M: ["--late", "--ink"], ".": ["--wait", "--ink"], C: ["--commit", "--on-commit"],
  "!": ["--fault", "--on-fault"], "-": ["--drop", "--ink"],
};

/** The colours of the style sheet as they now are, light or dark. */
function paletteOf(element) {
  const style = getComputedStyle(element);
  const known = {};
  return (name) => (known[name] ??= style.getPropertyValue(name).trim());
}

/** Stripes of a colour, to be laid over a cell; `down` says in which direction. */
function stripes(context, colour, down) {
  const tile = document.createElement("canvas");
  tile.width = tile.height = 6;
  const pen = tile.getContext("2d");
  pen.strokeStyle = colour;
  pen.lineWidth = 1;
  for (const shift of [-6, 0, 6]) {
    pen.moveTo(shift, down ? 0 : 6);
    pen.lineTo(shift + 6, down ? 6 : 0);
  }
  pen.stroke();
  return context.createPattern(tile, "repeat");
}

class Picture {
  /** `told.point(row, cycle)` is called for a cell that is pointed at, `told.hover(row, cycle, event)` for one under the mouse. */
  constructor(scroller, space, canvas, told) {
    Object.assign(this, { scroller, space, canvas, told });
    this.context = canvas.getContext("2d");
    this.size = 5;
    this.log = null;
    this.at = { row: null, cycle: 0 };
    this.isOwnScroll = false;
    this.lastTop = 0;
    this.lastLeft = 0;
    scroller.addEventListener("scroll", () => this.scrolled());
    canvas.addEventListener("click", (event) => this.clicked(event));
    canvas.addEventListener("mousemove", (event) => this.moved(event));
    canvas.addEventListener("mouseleave", () => told.hover(null, 0, null));
    new ResizeObserver(() => this.layOut()).observe(scroller);
    matchMedia("(prefers-color-scheme: dark)").addEventListener("change", () => this.draw());
  }

  // ---- sizes and places

  get cell() {
    return SIZES[this.size];
  }

  get hasLetters() {
    return this.cell >= LETTERS;
  }

  /** The pixels of the picture's upper left corner that are out of sight. */
  get left() {
    return this.scroller.scrollLeft * this.stretch.x;
  }

  get top() {
    return this.scroller.scrollTop * this.stretch.y;
  }

  xOf(cycle) {
    return this.names + (cycle - 1) * this.cell - this.left;
  }

  yOf(row) {
    return RULER + row * this.cell - this.top;
  }

  /** Makes the scrolled space as large as the log, and the canvas as large as what is seen of it. */
  layOut() {
    if (!this.log) {
      this.canvas.width = 0;
      return;
    }
    this.names = this.hasLetters ? this.widthOfNames() : 0;
    const wide = this.names + (this.log.shown + 1) * this.cell;
    const high = RULER + (this.log.rows.length + 1) * this.cell;
    this.stretch = { x: Math.max(1, wide / LARGEST), y: Math.max(1, high / LARGEST) };
    this.scroller.style.setProperty("--content", `${Math.ceil(high) + 20}px`);
    this.space.style.width = `${wide / this.stretch.x}px`;
    this.space.style.height = `${high / this.stretch.y}px`;
    const { clientWidth, clientHeight } = this.scroller;
    const dense = devicePixelRatio || 1;
    Object.assign(this.canvas.style, { width: `${clientWidth}px`, height: `${clientHeight}px` });
    Object.assign(this.canvas, { width: clientWidth * dense, height: clientHeight * dense });
    this.draw();
  }

  widthOfNames() {
    this.context.font = this.font();
    const longest = this.log.rows.reduce((most, row) => (this.nameOf(row).length > most.length ? this.nameOf(row) : most), "cycle");
    return Math.min(this.context.measureText(longest).width + 12, NAMES_AT_MOST, this.scroller.clientWidth * 0.42);
  }

  nameOf(row) {
    return (row.solo ? "solo " : "") + row.text;
  }

  font(weight = "") {
    return `${weight} ${Math.min(14, this.cell * 0.72)}px ui-monospace, "DejaVu Sans Mono", Menlo, Consolas, monospace`;
  }

  // ---- what is shown

  show(log) {
    const isNew = this.log === null && log !== null;
    this.log = log;
    this.layOut();
    if (isNew) this.scrollTo(0, 0);
  }

  /** Marks a row and a cycle, and brings them into sight. */
  point(row, cycle) {
    this.at = { row, cycle };
    if (this.log) this.reveal(row, cycle);
    this.draw();
  }

  reveal(row, cycle) {
    const { clientWidth, clientHeight } = this.scroller;
    const x = this.names + (cycle - 1) * this.cell;
    const y = RULER + (row ?? 0) * this.cell;
    const margin = 2 * this.cell;
    // On the right there is room for the stages to come.
    const behind = Math.min(8 * this.cell, (clientWidth - this.names) / 3);
    let { left, top } = this;
    if (x - margin < left + this.names) left = x - margin - this.names;
    if (x + behind + this.cell > left + clientWidth) left = x + behind + this.cell - clientWidth;
    if (row !== null && y - margin < top + RULER) top = y - margin - RULER;
    if (row !== null && y + margin + this.cell > top + clientHeight) top = y + margin + this.cell - clientHeight;
    this.scrollTo(left, top);
  }

  scrollTo(left, top) {
    this.isOwnScroll = true;
    this.scroller.scrollTo(left / this.stretch.x, top / this.stretch.y);
    this.lastTop = this.scroller.scrollTop;
    this.lastLeft = this.scroller.scrollLeft;
    this.isOwnScroll = false;
  }

  /** Another size of the cells; what is marked stays in sight. */
  zoom(by) {
    this.size = Math.min(SIZES.length - 1, Math.max(0, this.size + by));
    this.layOut();
    this.point(this.at.row, this.at.cycle);
  }

  // ---- scrolling and pointing

  /** A picture goes down a diagonal: who scrolls down alone is taken along it. */
  scrolled() {
    const { scrollTop, scrollLeft } = this.scroller;
    const isDown = scrollTop !== this.lastTop && scrollLeft === this.lastLeft;
    this.lastTop = scrollTop;
    this.lastLeft = scrollLeft;
    if (isDown && !this.isOwnScroll && this.log) {
      const row = this.log.rows[Math.floor(this.top / this.cell)];
      if (row) this.scrollTo((row.begin - 2) * this.cell, this.top);
    }
    this.told.hover(null, 0, null);
    this.draw();
  }

  /** The row and the cycle under the pointer; in the line of cycles there is no row, and left of the cells the row's first cycle is meant. */
  cellAt(event) {
    if (!this.log) return null;
    const frame = this.canvas.getBoundingClientRect();
    const x = event.clientX - frame.left;
    const y = event.clientY - frame.top;
    const number = y < RULER ? null : Math.floor((y - RULER + this.top) / this.cell);
    const row = number === null ? null : this.log.rows[number];
    if (row === undefined) return null;
    const cycle = x < this.names ? row?.begin ?? 0 : Math.floor((x - this.names + this.left) / this.cell) + 1;
    return cycle >= 1 && cycle <= this.log.shown ? { row: number, cycle } : null;
  }

  clicked(event) {
    const cell = this.cellAt(event);
    if (cell) this.told.point(cell.row, cell.cycle);
  }

  moved(event) {
    const cell = this.cellAt(event);
    this.told.hover(cell?.row ?? null, cell?.cycle ?? 0, event);
  }

  // ---- drawing

  draw() {
    if (!this.log || !this.canvas.width) return;
    const { context, scroller, cell } = this;
    const dense = devicePixelRatio || 1;
    const wide = scroller.clientWidth;
    const high = scroller.clientHeight;
    context.setTransform(dense, 0, 0, dense, 0, 0);
    this.colour = paletteOf(this.canvas);
    this.hatches = {
      solo: stripes(context, this.colour("--solo"), true), drop: stripes(context, this.colour("--soft"), false),
    };
    context.fillStyle = this.colour("--ground");
    context.fillRect(0, 0, wide, high);
    const first = Math.max(0, Math.floor(this.top / cell));
    const rows = this.log.rows.slice(first, first + Math.ceil((high - RULER) / cell) + 1);
    const span = { from: Math.max(1, Math.floor(this.left / cell)), to: Math.ceil((this.left + wide) / cell) + 1 };
    this.drawMarked(wide, high);
    for (const row of rows) this.drawRow(row, span);
    this.drawFlushes(span, high);
    if (this.hasLetters) rows.forEach((row) => this.drawName(row));
    this.drawRuler(span, wide);
    this.drawFrame();
  }

  /** The cycle and the row that are pointed at, behind the cells. */
  drawMarked(wide, high) {
    const { context, cell, at } = this;
    context.fillStyle = this.colour("--pointed");
    context.globalAlpha = 0.18;
    if (at.cycle > 0) context.fillRect(this.xOf(at.cycle), RULER, cell, high);
    if (at.row !== null) context.fillRect(0, this.yOf(at.row), wide, cell);
    context.globalAlpha = 1;
  }

  drawRow(row, span) {
    const last = Math.min(lastCycle(this.log, row), span.to);
    for (let cycle = Math.max(row.begin, span.from); cycle <= last; cycle++) {
      this.drawCell(row, cycle, letterAt(this.log, row, cycle));
    }
  }

  drawCell(row, cycle, letter) {
    const { context, cell } = this;
    const x = this.xOf(cycle);
    const y = this.yOf(row.number);
    const gap = cell > 6 ? 1 : 0;
    const [ground, ink] = PAINTS[letter] ?? PAINTS["."];
    context.fillStyle = this.colour(ground);
    context.fillRect(x + gap, y + gap, cell - gap, cell - gap);
    if (row.solo && letter !== "C") this.overlay(this.hatches.solo, x + gap, y + gap, cell - gap);
    if (letter === "-") this.overlay(this.hatches.drop, x + gap, y + gap, cell - gap);
    if (row.verdict && row.noted === cycle) this.drawNoted(x, y);
    if (!this.hasLetters) return;
    context.fillStyle = this.colour(ink);
    context.font = this.font("CA!S".includes(letter) ? "bold" : "");
    context.textAlign = "center";
    context.textBaseline = "middle";
    context.fillText(letter, x + gap / 2 + cell / 2, y + gap / 2 + cell / 2 + 1);
  }

  overlay(pattern, x, y, size) {
    this.context.fillStyle = pattern;
    this.context.fillRect(x, y, size, size);
  }

  /** A corner, in the cell of the cycle in which a verdict was noted. */
  drawNoted(x, y) {
    const { context, cell } = this;
    context.fillStyle = this.colour("--fault");
    context.beginPath();
    context.moveTo(x + cell, y + 1);
    context.lineTo(x + cell, y + 1 + cell * 0.5);
    context.lineTo(x + cell * 0.5, y + 1);
    context.fill();
  }

  /** Each flush that is in sight: a line through its cycle, broken where it is silent. */
  drawFlushes(span, high) {
    const { context, cell } = this;
    context.strokeStyle = this.colour("--fault");
    context.lineWidth = Math.max(1, Math.min(2, cell / 8));
    for (const flush of this.flushesIn(span)) {
      const x = this.xOf(flush.cycle) + cell;
      context.setLineDash(flush.cause ? [] : [3, 4]);
      context.beginPath();
      context.moveTo(x, RULER);
      context.lineTo(x, high);
      context.stroke();
    }
    context.setLineDash([]);
  }

  /** The flushes of some cycles: they are kept in their order, so the first is looked for by halves. */
  flushesIn(span) {
    const { flushes } = this.log;
    let low = 0;
    let high = flushes.length;
    while (low < high) {
      const middle = (low + high) >> 1;
      if (flushes[middle].cycle < span.from) low = middle + 1;
      else high = middle;
    }
    const found = [];
    for (let place = low; place < flushes.length && flushes[place].cycle <= span.to; place++) found.push(flushes[place]);
    return found;
  }

  drawName(row) {
    const { context, cell, names } = this;
    const y = this.yOf(row.number);
    context.fillStyle = this.colour("--panel");
    context.fillRect(0, y, names, cell + 1);
    if (row.solo) this.stripe(y);
    if (row.number === this.at.row) {
      context.fillStyle = this.colour("--pointed");
      context.globalAlpha = 0.25;
      context.fillRect(0, y, names, cell);
      context.globalAlpha = 1;
    }
    context.save();
    context.beginPath();
    context.rect(0, y, names - 3, cell);
    context.clip();
    context.fillStyle = this.colour("--ink");
    context.font = this.font(row.solo ? "italic" : "");
    context.textAlign = "left";
    context.textBaseline = "middle";
    context.fillText(this.nameOf(row), 8, y + cell / 2 + 1);
    context.restore();
  }

  /** A hatched stripe left of the name of what runs solo. */
  stripe(y) {
    this.context.fillStyle = this.hatches.solo;
    this.context.fillRect(0, y, 6, this.cell);
  }

  /** The line of cycles, with a flag at each flush: ! where a claim was wrong, W where the watchdog barked. */
  drawRuler(span, wide) {
    const { context, cell } = this;
    context.fillStyle = this.colour("--panel");
    context.fillRect(0, 0, wide, RULER);
    context.textBaseline = "middle";
    context.textAlign = "center";
    const every = [1, 2, 5, 10, 20, 50, 100, 200, 500, 1000].find((step) => step * cell >= 8 * String(span.to).length + 8) ?? 2000;
    context.fillStyle = this.colour("--soft");
    context.font = "11px ui-monospace, monospace";
    for (let cycle = Math.ceil(span.from / every) * every; cycle <= Math.min(span.to, this.log.shown); cycle += every) {
      context.fillText(String(cycle), this.xOf(cycle) + cell / 2, RULER / 2);
    }
    for (const flush of this.flushesIn(span)) this.drawFlag(flush);
    context.fillStyle = this.colour("--panel");
    context.fillRect(0, 0, this.names, RULER);
    context.fillStyle = this.colour("--soft");
    context.textAlign = "left";
    if (this.names) context.fillText("cycle", 8, RULER / 2);
  }

  drawFlag(flush) {
    const { context, cell } = this;
    const x = this.xOf(flush.cycle);
    const wide = Math.max(cell, 4);
    context.fillStyle = this.colour("--fault");
    context.fillRect(x, 2, wide, RULER - 4);
    if (cell < 7) return;
    context.fillStyle = this.colour("--on-fault");
    context.font = "bold 12px ui-monospace, monospace";
    context.fillText(flush.cause ? "!" : "W", x + wide / 2, RULER / 2 + 1);
  }

  /** A frame around the cell that is pointed at. */
  drawFrame() {
    const { context, cell, at } = this;
    if (at.row === null || at.cycle < 1) return;
    const x = this.xOf(at.cycle);
    const y = this.yOf(at.row);
    if (x + cell < this.names || y < RULER - 1) return;
    context.strokeStyle = this.colour("--pointed");
    context.lineWidth = 2;
    context.strokeRect(x + 1, y + 1, Math.max(cell - 1, 3), Math.max(cell - 1, 3));
  }
}
