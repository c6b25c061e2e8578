// The page: asks the program, and shows what it writes. What is asked stands in the form and in the address.

/** How many rows of a log are kept for the picture. */
const ROWS = 20000;

/** The numbers of a machine that have a field in the form, by the names of their options. */
const NUMBERS = ["width", "window", "stores", "watchdog", "port", "room", "cycles"];

/** The fields of a claim, in the order of a record. */
const FIELDS = ["pc", "word", "src1", "src2", "addr", "value", "next", "end"];

/** How many bytes of memory are shown, in pieces of as many as one command of a session shows. */
const BYTES = 128;
const PIECE = 32;

/** Files up to this many bytes are in the address too. */
const BYTES_IN_ADDRESS = 16384;

/** The stack of a C program lies behind what is loaded: so much room the page asks for where an executable comes in. */
const ROOM = "16384";

/** The statuses of a run that has a text, and what each status says. */
const RAN = [0, 3, 4];
const STATUSES = {
  0: "the run halted", 2: "the program takes no such words", 3: "the run trapped",
  4: "the cycles asked for were run, and the machine goes on", 10: "memory ran out",
};

const LEGEND = {
  A: "accepted", F: "fetch", D: "decode", O: "operands", X: "execute", M: "memory", ".": "ready, and waits", C: "commits",
  "!": "wrong: flushes", "-": "dropped", S: "begins solo (hatched)", W: "a silent flush: the watchdog",
};

const find = (id) => document.getElementById(id);
const page = document.documentElement;
const { examples, faults } = parts;
const textIn = ({ bytes }) => new TextDecoder().decode(bytes);
const spoken = (number) => number.toLocaleString("en");

/** What the page shows: the file that stands in the place of a source, the image that runs, and what became of it. */
const shown = {
  file: null, files: {}, wanted: null, text: "", put: [], log: null, rowOf: [], address: 0, memory: null,
  at: { cycle: 0, place: 0, row: null }, field: "value", turn: 0,
};

// ---- asking the program

const runner = new Helper();
const logger = new Helper();
const asker = new Helper();

/** What the form asks for. */
function asked() {
  const numbers = Object.fromEntries(NUMBERS.map((name) => [name, find(name).value.trim()]));
  return {
    example: find("example").value, source: find("source").value, file: shown.file,
    core: find("core").value, numbers, script: find("script").value,
  };
}

/** The options of a run: a field that is empty is left to the program. */
function optionsOf({ core, numbers, script }) {
  const words = ["--core", core];
  for (const name of NUMBERS) if (numbers[name]) words.push(`--${name}`, numbers[name]);
  if (script.trim()) words.push("--script", "script");
  return words;
}

/** The image that is run: the file, or what the program makes of the source; null where it makes none. */
async function imageOf({ file, source }) {
  if (file) return file.bytes;
  const made = await runner.run(["asm", "source"], { source: utf8(source) });
  if (made === null) return null;
  if (made.status === 0) return made.bytes;
  refused(textIn(made), made.status);
  return null;
}

// ---- a run

/** Runs what the form asks for. `look` says where to point when it is over. */
async function run(look = firstLook) {
  const turn = ++shown.turn;
  endAll();
  clearFaults();
  stateIs("running");
  const wanted = asked();
  writeAddress();
  const image = await imageOf(wanted);
  if (image === null || turn !== shown.turn) return;
  const files = { image, script: utf8(wanted.script) };
  Object.assign(shown, { files, wanted, text: "", put: bytesPut(""), log: null, rowOf: [] });
  const words = ["image", ...optionsOf(wanted)];
  const log = logOfRun(words, files, turn);
  const text = await runner.run(["run", ...words], files);
  if (text === null || turn !== shown.turn) return;
  showText(text);
  if (!RAN.includes(text.status)) return endAll();
  const rest = await log;
  if (turn !== shown.turn) return;
  logger.end();
  if (rest?.status === -1) return broken(rest);
  if (rest) showLog(rest.log);
  if (rest && !RAN.includes(rest.status)) find("kept").textContent = `There is no picture: ${textIn(rest)}`;
  runIsOver(look);
}

/** Shows a run's log as it comes. Answers what is left of it when it is over; or null, once the picture has all the rows that are kept. */
function logOfRun(words, files, turn) {
  return new Promise((resolve) => {
    const hear = (news) => {
      if (turn !== shown.turn) return;
      newsOfLog(news);
      if (shown.log?.isFull) resolve(null);
    };
    logger.run(["log", ...words], files, ROWS, hear).then(resolve);
  });
}

function newsOfLog({ cycles, log }) {
  find("progress").textContent = `${spoken(cycles)} cycles so far`;
  if (log) showLog(log);
}

function runIsOver(look) {
  stateIs("over");
  const [, cycles] = shown.text.match(/^cycles (\d+)$/m) ?? [];
  find("progress").textContent = `${spoken(Number(cycles))} cycles`;
  pointAt(look());
}

/** Where to point first: at the first flush, or else at the first row's last cycle. */
function firstLook() {
  const { log } = shown;
  const flush = log.flushes[0];
  if (flush) return { cycle: flush.cycle, row: causeOf(flush), place: placeAfter(log, flush.cycle) };
  return log.rows.length > 0 ? atCell(0, lastCycle(log, log.rows[0])) : { cycle: 0, row: null, place: 0 };
}

/** The row that a flush is about: the claim that was wrong, or what runs solo behind it. */
function causeOf(flush) {
  for (let number = flush.row - 1; number >= 0 && shown.log.rows[number].end?.cycle === flush.cycle; number--) {
    if (shown.log.rows[number].end.letter === "!") return number;
  }
  return flush.row;
}

function endAll() {
  for (const helper of [runner, logger]) helper.end();
}

/** What the button End does: what was seen of the run so far stays. */
function endRun() {
  shown.turn += 1;
  endAll();
  stateIs("ended");
  find("progress").textContent += ": ended";
  if (shown.text === "") {
    find("status").textContent = "The run was ended, so it has no text.";
    find("text").textContent = "";
    showOutput(0);
  }
  if (shown.log) pointAt(firstLook());
}

function stateIs(state) {
  page.dataset.state = state;
  find("end").disabled = state !== "running";
  if (state === "running") find("progress").textContent = "running";
}

// ---- the texts of a run, and faults

function showText(run) {
  const { status } = run;
  shown.text = textIn(run);
  if (status === -1) return broken(run);
  if (!RAN.includes(status)) return refused(shown.text, status);
  find("status").textContent = `Status ${status}: ${STATUSES[status]}.`;
  find("text").replaceChildren(...shown.text.split(/(?<=\n)/).map(lineOfText));
  shown.put = bytesPut(shown.text);
  showOutput(shown.put.length);
}

/** A line of a run's text; one of a flush is a button that leads there. */
function lineOfText(line) {
  const [, cycle] = line.match(/^flush (\d+) at /) ?? [];
  if (!cycle) return line;
  const button = document.createElement("button");
  button.type = "button";
  button.textContent = line.trimEnd();
  button.addEventListener("click", () => goToFlush((flush) => flush.cycle >= Number(cycle)));
  const whole = document.createElement("span");
  whole.append(button, "\n");
  return whole;
}

/** What was put: the bytes of the lines `out` of a run's text. */
function bytesPut(text) {
  const letters = [...text.matchAll(/^out (\S+)$/gm)].map(([, bytes]) => bytes).join("");
  return Uint8Array.from(letters.match(/../g) ?? [], (byte) => parseInt(byte, 16));
}

/** Shows the output as a text, with what is put only later told apart. */
function showOutput(length, cycle = null) {
  const letters = (bytes) => new TextDecoder().decode(bytes);
  const later = document.createElement("span");
  later.className = "later";
  later.textContent = letters(shown.put.subarray(length));
  find("output").replaceChildren(letters(shown.put.subarray(0, length)), ...(later.textContent ? [later] : []));
  find("output-line").textContent = cycle === null || shown.put.length === 0
    ? "" : `${spoken(length)} of ${spoken(shown.put.length)} bytes are put by cycle ${spoken(cycle)}.`;
}

/** Shows why the program refused a file, at its line and in words. */
function refused(text, status) {
  const [, what, kind, place] = text.match(/^refused (\w+) (\d+) at (\d+)$/m) ?? [];
  const words = faults[what]?.[kind];
  find("status").textContent = status in STATUSES ? `Status ${status}: ${STATUSES[status]}.` : "";
  find("text").textContent = text;
  shown.put = bytesPut("");
  showOutput(0);
  stateIs("refused");
  find("progress").textContent = "refused";
  showNothing();
  if (what === "source" || what === "script") faultAt(what, Number(place), words);
  else if (what) find("source-fault").textContent = `The file is no image or executable that runs here: ${words} (at byte ${place}).`;
  else if (status === 2) find("numbers-fault").textContent = "A number is out of its range, or no number: the program takes no such words.";
  else find("numbers-fault").textContent = `Status ${status}: ${STATUSES[status] ?? text}`;
}

function faultAt(what, line, words) {
  find(`${what}-fault`).textContent = line > 0 ? `Line ${line}: ${words}.` : `The whole of it: ${words}.`;
  numberLines(what, line);
  const text = find(what);
  const before = text.value.split("\n").slice(0, Math.max(0, line - 1)).join("\n").length;
  text.scrollTop = (line - 4) * parseFloat(getComputedStyle(text).lineHeight);
  text.setSelectionRange(line > 1 ? before + 1 : 0, line > 1 ? before + 1 : 0);
}

function broken(run) {
  stateIs("broken");
  find("progress").textContent = "";
  find("status").textContent = `The program could not be run: ${textIn(run)}`;
}

function clearFaults() {
  for (const id of ["source-fault", "script-fault", "numbers-fault"]) find(id).textContent = "";
  for (const what of ["source", "script"]) numberLines(what);
}

/** Numbers the lines of an editor, and marks one that has a fault. */
function numberLines(what, fault = 0) {
  const text = find(what);
  const lines = text.value.split("\n").map((_, place) => {
    if (place + 1 !== fault) return `${place + 1}\n`;
    const mark = document.createElement("b");
    mark.textContent = `> ${fault}`;
    return [mark, "\n"];
  });
  const gutter = text.parentElement.querySelector(".gutter");
  gutter.replaceChildren(...lines.flat());
  gutter.scrollTop = text.scrollTop;
}

// ---- the picture, and where one stands in it

const picture = new Picture(find("scroller"), find("space"), find("canvas"), {
  point: (row, cycle) => shown.log && pointAt(row === null ? atCycle(cycle) : atCell(row, cycle)),
  hover: showHint,
});

function showLog(log) {
  shown.log = log;
  shown.rowOf = [];
  for (const row of log.rows) if (row.end?.letter === "C") shown.rowOf[row.place] = row.number;
  picture.show(log);
  find("kept").textContent = log.isFull
    ? `The picture has the first ${spoken(log.rows.length)} rows, up to cycle ${spoken(log.shown)}; the run goes on behind it.` : "";
  showLetters();
}

/** Where nothing ran there is nothing to point at. */
function showNothing() {
  shown.log = null;
  picture.show(null);
  showClaim();
  for (const id of ["registers", "memory", "letters"]) find(id).replaceChildren();
  for (const id of ["state-line", "change", "kept"]) find(id).textContent = "";
}

/** The picture as a text, while somebody wants it and it is of a size to be read. */
function showLetters() {
  const { log } = shown;
  if (!log || !find("letters").parentElement.open) return;
  find("letters").textContent = log.shown * log.rows.length <= 250000
    ? pictureText(log) : `It is too large for a text: ${spoken(log.rows.length)} rows in ${spoken(log.shown)} cycles.`;
}

function atCycle(cycle) {
  return { cycle, row: shown.at.row, place: placeAfter(shown.log, cycle) };
}

/** Behind a cell: behind the instruction, where it is the cell of a commit, and else behind the cycle. */
function atCell(row, cycle) {
  const { end, place } = shown.log.rows[row];
  const isCommit = end?.letter === "C" && end.cycle === cycle;
  return { cycle, row, place: isCommit ? place + 1 : placeAfter(shown.log, cycle) };
}

function atPlace(place) {
  if (place <= 0) return { cycle: 0, row: null, place: 0 };
  return { cycle: shown.log.commits[place - 1], row: shown.rowOf[place - 1], place };
}

/** Points at a place, as far as the picture reaches, and shows all that is known there. */
function pointAt({ cycle, row, place }) {
  const { log } = shown;
  if (!log) return;
  const known = row !== null && row < log.rows.length ? row : null;
  shown.at = { cycle: Math.min(cycle, log.shown), row: known, place: Math.min(place, log.commits.length) };
  picture.point(known, shown.at.cycle);
  showClaim();
  showState();
  writeAddress();
}

/** The steps of the bar and of the keys. */
function go(where) {
  const { log, at } = shown;
  if (!log) return;
  if (where === "start") pointAt(atPlace(0));
  if (where === "finish") pointAt(atCycle(log.shown));
  if (where === "cycle-back") pointAt(atCycle(Math.max(0, at.cycle - 1)));
  if (where === "cycle-on") pointAt(atCycle(at.cycle + 1));
  if (where === "place-back") pointAt(atPlace(at.place - 1));
  if (where === "place-on" && at.place < log.commits.length) pointAt(atPlace(at.place + 1));
  if (where === "row-back" || where === "row-on") goToRow((at.row ?? -1) + (where === "row-on" ? 1 : -1));
  if (where === "flush") goToFlush((flush) => flush.cycle > at.cycle);
}

/** To another row, in the same cycle where it has a cell there. */
function goToRow(number) {
  const row = shown.log.rows[number];
  if (row) pointAt(atCell(number, Math.min(Math.max(shown.at.cycle, row.begin), lastCycle(shown.log, row))));
}

function goToFlush(isIt) {
  const flush = shown.log?.flushes.find(isIt);
  if (flush) pointAt({ cycle: flush.cycle, row: causeOf(flush), place: placeAfter(shown.log, flush.cycle) });
}

const KEYS = {
  ArrowLeft: "cycle-back", ArrowRight: "cycle-on", ArrowUp: "row-back", ArrowDown: "row-on", Home: "start", End: "finish", f: "flush",
};

function keyInPicture(event) {
  if (event.ctrlKey || event.metaKey || event.altKey) return;
  const steps = event.shiftKey ? { ...KEYS, ArrowLeft: "place-back", ArrowRight: "place-on" } : KEYS;
  if (event.key === "+" || event.key === "=") picture.zoom(1);
  else if (event.key === "-") picture.zoom(-1);
  else if (event.key in steps) go(steps[event.key]);
  else return;
  event.preventDefault();
}

// ---- a claim

/** What became of a row, in words. */
function fateOf(row) {
  const begin = row.solo ? `Runs solo from cycle ${row.begin} on` : `A claim, accepted in cycle ${row.begin} at lane ${row.lane}`;
  const ends = {
    C: `commits in cycle ${row.end?.cycle}`, "!": `differs, and flushes in cycle ${row.end?.cycle}`, "-": `is dropped in cycle ${row.end?.cycle}`,
  };
  const noted = row.solo ? "The flush that started it" : `Verdict, noted in cycle ${row.noted}`;
  const verdict = row.verdict ? ` ${noted}: ${row.verdict}.` : "";
  return `${begin}; it ${row.end ? ends[row.end.letter] : "is pending where the picture ends"}.${verdict}`;
}

const valueOf = (row, field) => (field === "pc" || field === "word" ? row[field] : row.fields[field]);

function showHint(number, cycle, event) {
  const hint = find("hint");
  const row = number === null ? null : shown.log?.rows[number];
  hint.hidden = !row;
  if (!row) return;
  const letter = letterAt(shown.log, row, cycle);
  const fields = FIELDS.slice(2).map((field) => `${field} ${valueOf(row, field) ?? "-"}`);
  hint.textContent = [
    `${row.pc} ${row.word} ${row.text}`, `cycle ${cycle}${letter === " " ? "" : `: ${letter}, ${LEGEND[letter]}`}`,
    `${fields.slice(0, 3).join("  ")}\n${fields.slice(3).join("  ")}`, fateOf(row),
  ].join("\n");
  const { width, height } = hint.getBoundingClientRect();
  hint.style.left = `${Math.max(4, Math.min(event.clientX + 14, innerWidth - width - 6))}px`;
  hint.style.top = `${event.clientY + 18 + height > innerHeight ? event.clientY - height - 12 : event.clientY + 18}px`;
}

function showClaim() {
  const row = shown.at.row === null ? null : shown.log?.rows[shown.at.row];
  find("claim-line").textContent = row ? `Place ${row.place}: ${row.pc} ${row.word} ${row.text}` : "Point at a row of the picture.";
  find("claim-fate").textContent = row ? fateOf(row) : "";
  find("fields").replaceChildren(...(row ? FIELDS.map((field) => fieldButton(row, field)) : []));
  find("bits").replaceChildren(...(row && !row.solo && valueOf(row, shown.field) ? bitButtons(row, shown.field) : []));
  find("lost").textContent = row?.lost.length
    ? `Handed over too, and dropped for want of room: ${row.lost.map(({ cycle, claim }) => `${claim} (cycle ${cycle})`).join("; ")}.` : "";
}

function fieldButton(row, field) {
  const button = document.createElement("button");
  button.type = "button";
  button.append(field, " ", valueOf(row, field) ?? "-");
  button.setAttribute("aria-pressed", String(field === shown.field && !row.solo));
  if (!row.solo && row.verdict?.split(" ")[0] === field) button.className = "wrong";
  button.addEventListener("click", () => {
    shown.field = field;
    showClaim();
    [...find("fields").children][FIELDS.indexOf(field)].focus();
  });
  return button;
}

/** A button for each bit of a field, from the highest to the lowest, with the row of a script that each stands for. */
function bitButtons(row, field) {
  const bits = parseInt(valueOf(row, field), 16).toString(2).padStart(32, "0");
  const rows = find("script").value.split("\n").map((line) => line.trim());
  const head = document.createElement("p");
  head.textContent = `Flip a bit of ${field}, in the claim of cycle ${row.begin} at lane ${row.lane}:`;
  return [head, ...[...bits].map((bit, place) => {
    const button = document.createElement("button");
    const flip = `at ${row.begin} lane ${row.lane} flip ${field} ${31 - place}`;
    const number = document.createElement("small");
    button.type = "button";
    button.title = flip;
    button.setAttribute("aria-label", `bit ${31 - place}, now ${bit}`);
    button.setAttribute("aria-pressed", String(rows.includes(flip)));
    if (rows.includes(flip)) button.className = "changed";
    number.textContent = 31 - place;
    button.append(bit, number);
    button.addEventListener("click", () => flipBit(flip, row));
    return button;
  })];
}

/** Writes the row into the script, or takes it out where it stands there already, and runs anew. */
function flipBit(flip, row) {
  const script = find("script");
  const lines = script.value.split("\n").filter((line, place, all) => line !== "" || place + 1 < all.length);
  const known = lines.findIndex((line) => line.trim() === flip);
  if (known >= 0) lines.splice(known, 1);
  else lines.push(flip);
  script.value = lines.map((line) => `${line}\n`).join("");
  // The rows before it are as they were, so it has its number again.
  const look = () => {
    const again = shown.log.rows[row.number];
    return again ? atCell(row.number, lastCycle(shown.log, again)) : firstLook();
  };
  const focus = () => [...find("bits").children].find(({ title }) => title === flip)?.focus({ preventScroll: true });
  run(look).then(focus);
}

// ---- registers and memory

/** The commands that show all registers and some memory. */
function looksAt(address) {
  const registers = Array.from({ length: 32 }, (_, number) => `reg ${number}`);
  const pieces = Array.from({ length: BYTES / PIECE }, (_, number) => `mem ${hex(address + number * PIECE)} ${PIECE}`);
  return [...registers, ...pieces];
}

/** The commands that step to a place; one of them steps a million instructions at most. */
function stepsTo(place) {
  const steps = [];
  for (let left = place; left > 0; left -= 1000000) steps.push(`step ${Math.min(left, 1000000)}`);
  return steps;
}

/** What to ask a session: what stands there an instruction before, and then at the place. The last command tells the pc of an end. */
function commandsAt(place, address) {
  if (place === 0) return [...looksAt(address), "step 1", "back 1"];
  return [...stepsTo(place - 1), ...looksAt(address), "step 1", ...looksAt(address), "back 1"];
}

const hex = (number) => number.toString(16).padStart(8, "0");

/** From where memory is shown: around the newest address up to the place, where addresses are followed. */
function addressAt(place) {
  if (!find("follow").checked) return shown.address;
  for (let number = place - 1; number >= Math.max(0, place - 1000); number--) {
    const address = shown.log.rows[shown.rowOf[number]]?.fields.addr;
    if (address && address !== "00000000") return windowAt(parseInt(address, 16));
  }
  const first = shown.log.rows[shown.rowOf[0]];
  return first ? windowAt(parseInt(first.pc, 16)) : 0;
}

const windowAt = (address) => Math.min(address - (address % BYTES), 2 ** 32 - BYTES);

/** Asks for the place that is pointed at, one question at a time; where one is under way, the newest place is asked for behind it. */
async function showState() {
  if (page.dataset.asked === "asking") {
    shown.asksAgain = true;
    return;
  }
  page.dataset.asked = "asking";
  do {
    shown.asksAgain = false;
    await askPlace(shown.at);
  } while (shown.asksAgain && shown.log);
  page.dataset.asked = "told";
}

async function askPlace({ place, cycle }) {
  shown.address = addressAt(place);
  const commands = utf8(commandsAt(place, shown.address).join("\n"));
  const { room } = shown.wanted.numbers;
  const words = ["debug", "image", "commands", "--core", "scalar", ...(room ? ["--room", room] : [])];
  const answer = await asker.run(words, { ...shown.files, commands });
  // Another run may have begun meanwhile.
  if (shown.log && answer?.status === 0) showReplies(textIn(answer), place, cycle);
  if (shown.log && shown.put.length > 0) await askOutput(cycle);
}

/** Asks what is put by a cycle: a run that is cut short there says so. */
async function askOutput(cycle) {
  const { wanted, files } = shown;
  const cut = { ...wanted, numbers: { ...wanted.numbers, cycles: String(cycle) } };
  const answer = cycle > 0 ? await asker.run(["run", "image", ...optionsOf(cut)], files) : null;
  showOutput(answer ? bytesPut(textIn(answer)).length : 0, cycle);
}

/** The replies of a session: each is a line. */
function showReplies(text, place, cycle) {
  const replies = text.split("\n");
  const registers = replies.filter((line) => /^x\d/.test(line)).map((line) => line.split(" ")[1]);
  const memory = replies.filter((line) => line.startsWith("mem ")).map((line) => line.split(" ")[2]);
  const stands = replies.filter((line) => /^(at|ended) /.test(line)).map((line) => line.split(" "));
  const isThere = (stand) => place > 0 && stand[0] === "at" && Number(stand[1]) === place;
  // Behind an end the pc is still that of the instruction that ended.
  const pc = (stands.find(isThere) ?? stands.at(-1))[3];
  const end = stands.find((stand) => stand[0] === "ended" && Number(stand[1]) === place);
  find("state-line").textContent = `After ${spoken(place)} instruction${place === 1 ? "" : "s"}, cycle ${spoken(cycle)}: `
    + (place > 0 && end ? `ended by ${end.slice(2).join(" ")}, pc ${pc}` : `pc ${pc}`);
  showRegisters(registers.slice(0, 32), registers.slice(-32));
  showMemory(memory.slice(0, BYTES / PIECE).join(""), memory.slice(-BYTES / PIECE).join(""));
  const changes = [...document.querySelectorAll("#registers .changed, #memory .changed")].map(({ title }) => title);
  find("change").textContent = place > 0 ? `Last change: ${changes.join(", ") || "none of what is shown here"}.` : "";
}

function showRegisters(before, now) {
  find("registers").replaceChildren(...now.map((value, number) => {
    const line = document.createElement("span");
    line.textContent = `x${number}`.padEnd(4) + value;
    if (value !== before[number]) markChanged(line, `x${number} from ${before[number]} to ${value}`);
    return line;
  }));
}

/** Marks what the last instruction has changed, and says in the element's title from what. */
function markChanged(element, change) {
  element.className = "changed";
  element.title = change;
}

/** Memory in lines of bytes, with the letters that they are; on a small screen a line has half as many. */
function showMemory(before, now) {
  shown.memory = { before, now };
  const wide = find("memory").clientWidth < 590 ? 8 : 16;
  const bytes = now.match(/../g) ?? [];
  const were = before.match(/../g) ?? [];
  const parts = [];
  for (let place = 0; place < bytes.length; place += wide) {
    parts.push(`${hex(shown.address + place)} `);
    for (let number = place; number < place + wide; number++) parts.push(" ", byteOf(shown.address + number, bytes[number], were[number]));
    parts.push(`  ${bytes.slice(place, place + wide).map(letterOf).join("")}\n`);
  }
  find("memory").replaceChildren(...parts);
  if (document.activeElement !== find("address")) find("address").value = hex(shown.address);
}

function byteOf(address, now, before) {
  if (now === before) return now;
  const mark = document.createElement("span");
  mark.textContent = now;
  markChanged(mark, `the byte at ${hex(address)} from ${before} to ${now}`);
  return mark;
}

function letterOf(byte) {
  const code = parseInt(byte, 16);
  return code >= 32 && code < 127 ? String.fromCharCode(code) : ".";
}

// ---- examples and files

function exampleNamed(name) {
  return examples.find((example) => example.name === name) ?? examples[0];
}

/** Fills the form with an example. */
function fillWith(example) {
  find("example").value = example.name;
  find("source").value = example.source;
  find("script").value = example.script;
  find("core").value = example.core;
  for (const name of NUMBERS) find(name).value = example.numbers[name] ?? "";
  const bytes = example.bytes ? Uint8Array.from(atob(example.bytes), (letter) => letter.charCodeAt(0)) : null;
  fileIs(bytes ? { name: example.file, bytes } : null);
}

/** Puts a file in the place of the source, or the source back. */
function fileIs(file) {
  shown.file = file;
  find("file-line").hidden = !file;
  find("source-editor").hidden = Boolean(file);
  find("file-name").textContent = file?.name ?? "";
  find("file-size").textContent = file ? `${spoken(file.bytes.length)} bytes` : "";
}

/** Takes a file that was dropped or opened: a source, a script, or else an executable or an image. */
async function takeFile(file) {
  const bytes = new Uint8Array(await file.arrayBuffer());
  const text = () => new TextDecoder().decode(bytes);
  if (file.name.endsWith(".script")) find("script").value = text();
  else if (file.name.endsWith(".s")) {
    fileIs(null);
    find("source").value = text();
  } else {
    fileIs({ name: file.name, bytes });
    const isExecutable = bytes[0] === 0x7f && bytes[1] === 0x45;
    if (isExecutable && !find("room").value) find("room").value = ROOM;
  }
  run();
}

// ---- the address

/** What differs from the example that is chosen, and where one stands. */
function writeAddress() {
  const { example: name, source, file, core, numbers, script } = asked();
  const example = exampleNamed(name);
  const parts = new URLSearchParams({ example: name });
  if (file && file.name !== example.file) {
    parts.set("file", file.name);
    if (file.bytes.length <= BYTES_IN_ADDRESS) parts.set("bytes", btoa(String.fromCharCode(...file.bytes)));
  } else if (!file && source !== example.source) parts.set("source", source);
  if (script !== example.script) parts.set("script", script);
  if (core !== example.core) parts.set("core", core);
  for (const number of NUMBERS) if (numbers[number] !== (example.numbers[number] ?? "")) parts.set(number, numbers[number]);
  if (shown.log) {
    const { cycle, place, row } = shown.at;
    parts.set("cycle", cycle);
    parts.set("place", place);
    if (row !== null) parts.set("row", row);
  }
  history.replaceState(null, "", `#${parts}`);
}

/** Fills the form by the address, and answers how to find the place that it names, or else where to look first. */
function readAddress() {
  const parts = new URLSearchParams(location.hash.slice(1));
  fillWith(exampleNamed(parts.get("example")));
  if (parts.has("source")) {
    fileIs(null);
    find("source").value = parts.get("source");
  }
  if (parts.has("file") && !parts.has("bytes")) return lacksFile(parts.get("file"));
  if (parts.has("bytes")) {
    const bytes = Uint8Array.from(atob(parts.get("bytes").replaceAll(" ", "+")), (letter) => letter.charCodeAt(0));
    fileIs({ name: parts.get("file") ?? "file", bytes });
  }
  for (const name of ["script", "core", ...NUMBERS]) if (parts.has(name)) find(name).value = parts.get(name);
  if (!parts.has("cycle")) return firstLook;
  const number = (name) => Number(parts.get(name)) || 0;
  return () => ({ cycle: number("cycle"), place: number("place"), row: parts.has("row") ? number("row") : null });
}

/** A large file is not in the address: somebody else has to open it. */
function lacksFile(name) {
  return () => {
    find("source-fault").textContent = `The link is to a run of the file ${name}, which is too large for a link: open it here.`;
    return firstLook();
  };
}

// ---- the beginning

function fillLists() {
  find("example").replaceChildren(...examples.map(({ name, title }) => new Option(title, name)));
  find("legend").replaceChildren(...Object.entries(LEGEND).map(([letter, meaning]) => {
    const line = document.createElement("li");
    const mark = document.createElement("b");
    mark.textContent = letter;
    line.append(mark, ` ${meaning}`);
    return line;
  }));
}

function listenToForm() {
  find("asked").addEventListener("submit", (event) => {
    event.preventDefault();
    run();
  });
  find("asked").addEventListener("keydown", (event) => {
    if (event.key === "Enter" && (event.ctrlKey || event.metaKey)) run();
  });
  find("end").addEventListener("click", endRun);
  find("example").addEventListener("change", () => {
    fillWith(exampleNamed(find("example").value));
    run();
  });
  for (const id of ["core", ...NUMBERS]) find(id).addEventListener("change", () => run());
  for (const what of ["source", "script"]) {
    find(what).addEventListener("input", () => numberLines(what));
    find(what).addEventListener("scroll", () => {
      find(what).parentElement.querySelector(".gutter").scrollTop = find(what).scrollTop;
    });
  }
  find("file").addEventListener("change", () => find("file").files[0] && takeFile(find("file").files[0]));
  find("file-away").addEventListener("click", () => {
    fileIs(null);
    run();
  });
}

function listenToPicture() {
  for (const place of [find("scroller"), document.querySelector(".bar")]) place.addEventListener("keydown", keyInPicture);
  for (const button of document.querySelectorAll("[data-go]")) button.addEventListener("click", () => go(button.dataset.go));
  for (const button of document.querySelectorAll("[data-zoom]")) {
    button.addEventListener("click", () => picture.zoom(Number(button.dataset.zoom)));
  }
  new ResizeObserver(() => shown.memory && shown.log && showMemory(shown.memory.before, shown.memory.now)).observe(find("state"));
  find("letters").parentElement.addEventListener("toggle", showLetters);
  find("follow").addEventListener("change", () => pointAt(shown.at));
  find("address").addEventListener("change", () => {
    const address = parseInt(find("address").value, 16);
    find("follow").checked = false;
    if (address >= 0 && address < 2 ** 32) shown.address = Math.min(address, 2 ** 32 - BYTES);
    pointAt(shown.at);
  });
}

function listenToFiles() {
  const isOver = (event, is) => {
    event.preventDefault();
    find("drop").classList.toggle("over", is);
  };
  document.addEventListener("dragover", (event) => isOver(event, true));
  document.addEventListener("dragleave", (event) => isOver(event, false));
  document.addEventListener("drop", (event) => {
    isOver(event, false);
    if (event.dataTransfer.files[0]) takeFile(event.dataTransfer.files[0]);
  });
}

async function beginPage() {
  fillLists();
  listenToForm();
  listenToPicture();
  listenToFiles();
  const look = readAddress();
  addEventListener("hashchange", () => run(readAddress()));
  try {
    Helper.module = await WebAssembly.compile(await opened("packed-module").arrayBuffer());
  } catch (fault) {
    stateIs("broken");
    find("status").textContent = `This browser does not open the program, which is WebAssembly of 64 bits: ${fault}`;
    return;
  }
  run(look);
}

beginPage();
