// Reads the log that the program's command `log` writes: which claim was under way when, and what became of it.
// All that a page shows of a pipeline is read here; no rule of the machine stands in this file.

/** The letters of a picture, those of the tour, by the names of the log's stages. */
const STAGE_LETTERS = {
  accepted: "A", solo: "S", fetch: "F", decode: "D", operands: "O", execute: "X", memory: "M", ready: ".",
};

/** How a row ends: it commits, it was the cause of a flush, or it was dropped. */
const ENDS = { commits: "C", flushes: "!", dropped: "-" };

/** A log has plain letters alone, so each byte is one. */
const LETTERS_OF_BYTES = new TextDecoder("latin1");

/** A row as it begins: a claim that was accepted, or an instruction that runs solo. */
function newRow(number, cycle) {
  return {
    number, begin: cycle, solo: false, lane: 0, stages: [],
    place: 0, pc: "", word: "", text: "", fields: {},
    verdict: null, noted: 0, lost: [], end: null,
  };
}

/** The pairs of a line such as `record src1 00000000 src2 00000000`, as an object. */
function pairsOf(text) {
  const words = text.split(" ").slice(1);
  const pairs = {};
  for (let place = 0; place + 1 < words.length; place += 2) pairs[words[place]] = words[place + 1];
  return pairs;
}

/** Takes the bytes of a log as they come, keeps its first rows, and counts the cycles of all. */
class LogReader {
  constructor(most) {
    this.most = most;
    this.cycles = 0;
    this.shown = 0;
    this.rows = [];
    this.commits = [];
    this.flushes = [];
    this.isFull = false;
    this.begun = 0;
    this.rest = "";
    this.before = 10;
    this.letter = 0;
  }

  /** Takes some bytes, which may end anywhere in a line. */
  take(bytes) {
    if (this.isFull) this.count(bytes);
    else this.read(bytes);
  }

  /** Where no more rows are kept, the lines that begin with C and a tab are counted, and nothing else is looked at. */
  count(bytes) {
    for (const byte of bytes) {
      if (byte === 9 && this.letter === 67 && this.before === 10) this.cycles += 1;
      this.before = this.letter;
      this.letter = byte;
    }
  }

  read(bytes) {
    const lines = (this.rest + LETTERS_OF_BYTES.decode(bytes)).split("\n");
    this.rest = lines.pop();
    for (const [place, line] of lines.entries()) {
      if (!this.readLine(line)) {
        this.isFull = true;
        this.letter = 10;
        this.count(new TextEncoder().encode([...lines.slice(place + 1), this.rest].join("\n")));
        return;
      }
    }
  }

  /** Reads a line; false where it would begin a row more than are kept. */
  readLine(line) {
    const words = line.split("\t");
    if (words[0] === "C") return this.nextCycle(Number(words[1]));
    if (words[0] === "I") this.rows.push(newRow(Number(words[1]), this.cycles));
    const row = this.rows[words[1]];
    if (row && words[0] === "S") this.enter(row, words[3]);
    if (row && words[0] === "L") this.label(row, words[2], words.slice(3).join("\t"));
    if (row && words[0] === "R") this.retire(row, Number(words[2]), words[3] === "0");
    return true;
  }

  /** The picture ends with a whole cycle, so it is looked at here whether there is room for more. */
  nextCycle(by) {
    this.finishCycle();
    this.cycles += by;
    this.begun = 0;
    if (this.rows.length >= this.most) return false;
    this.shown = this.cycles;
    return true;
  }

  enter(row, stage) {
    if (stage === "solo") {
      row.solo = true;
      this.flushes.push({ cycle: this.cycles, row: row.number, cause: null });
    } else if (stage === "accepted") {
      row.lane = this.begun;
      this.begun += 1;
    }
    row.stages.push(STAGE_LETTERS[stage] ?? "?");
  }

  /** A label of the line itself (kind 0), or of what is known of the row: its fields, a verdict, a claim that found no room. */
  label(row, kind, text) {
    if (kind === "0") {
      const [, place, pc, word, listed] = text.match(/^(\d+): (\S+) (\S+) ?(.*)$/) ?? [];
      Object.assign(row, { place: Number(place), pc, word, text: listed ?? text });
    } else if (text.startsWith("\\ndropped ")) {
      row.lost.push({ cycle: this.cycles, claim: text.slice("\\ndropped ".length) });
    } else if (text.startsWith("\\n")) {
      row.verdict = text.slice(2);
      row.noted = this.cycles;
    } else {
      Object.assign(row.fields, pairsOf(text));
    }
  }

  retire(row, place, commits) {
    row.end = { cycle: this.cycles, letter: commits ? ENDS.commits : ENDS.dropped };
    row.place = place;
    if (commits) this.commits[place] = this.cycles;
    else if (this.dropped?.end.cycle !== this.cycles) this.dropped = row;
  }

  /**
   * A flush has a solo row in its cycle. Its cause is the verdict of the first row that was dropped then, where that had been
   * through all stages before; else the flush is silent.
   */
  finishCycle() {
    const flush = this.flushes.at(-1);
    if (flush?.cycle !== this.cycles || this.dropped?.end.cycle !== this.cycles) return;
    const row = this.dropped;
    if (row.verdict === null || !["M", "."].includes(letterAt(this, row, this.cycles - 1))) return;
    row.end.letter = ENDS.flushes;
    flush.cause = row.verdict;
  }

  /** What was read, once the log is over or as much of it as is wanted. */
  finish() {
    if (!this.isFull) this.finishCycle();
    const { rows, cycles, shown, commits, flushes, isFull } = this;
    return { rows, cycles, shown, commits, flushes, isFull };
  }
}

/** The last cycle in which a row is drawn. */
function lastCycle(log, row) {
  return row.end ? row.end.cycle : log.shown;
}

/** The letter of a row in a cycle, a space where it has none. */
function letterAt(log, row, cycle) {
  if (cycle < row.begin || cycle > lastCycle(log, row)) return " ";
  return row.end?.cycle === cycle ? row.end.letter : row.stages[cycle - row.begin] ?? ".";
}

/** How many instructions have committed when a cycle is over: as many as committed in it or before. */
function placeAfter(log, cycle) {
  let low = 0;
  let high = log.commits.length;
  while (low < high) {
    const middle = (low + high) >> 1;
    if (log.commits[middle] <= cycle) low = middle + 1;
    else high = middle;
  }
  return low;
}

/** The picture as a text: a line for each row, a column of two letters and a space for each cycle. */
function pictureText(log) {
  const names = log.rows.map((row) => row.text + (row.solo ? ", solo" : ""));
  const wide = Math.max(5, ...names.map((name) => name.length)) + 1;
  const cycles = Array.from({ length: log.shown }, (_, place) => place + 1);
  const lines = [["cycle", cycles.map((cycle) => String(cycle).padStart(2))]];
  log.rows.forEach((row, place) => lines.push([names[place], cycles.map((cycle) => letterAt(log, row, cycle).padStart(2))]));
  return lines.map(([name, cells]) => (name.padEnd(wide) + cells.join(" ")).trimEnd() + "\n").join("");
}

if (typeof module !== "undefined") module.exports = { LogReader, letterAt, lastCycle, placeAfter, pictureText };
