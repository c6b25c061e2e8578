// Runs the program of a built page under node, with the page's own host and reader of logs, on the files of the disk.
//
// usage: node page/node.js                            ends with status 0 if this node can run such a module, or else with 1
//        node page/node.js PAGE diva WORDS..          as `diva`
//        node page/node.js PAGE diva_lab WORDS.. as `diva_lab`, which is the program of the page
//        node page/node.js PAGE picture WORDS..       the picture of `log WORDS..`, as a text
"use strict";
const fs = require("fs");
const path = require("path");
const zlib = require("zlib");
const { runProgram, wholeRun } = require(path.join(__dirname, "host.js"));
const { LogReader, pictureText } = require(path.join(__dirname, "log.js"));

/** Whether modules with addresses of 64 bits are known: a module that has such a memory, and nothing else, is valid. */
function knowsWideMemory() {
  return WebAssembly.validate(Uint8Array.of(0, 0x61, 0x73, 0x6d, 1, 0, 0, 0, 5, 3, 1, 4, 1));
}

/** Answers whether this node can run the module; an older one has to be told first. */
function canRun() {
  if (!knowsWideMemory()) require("v8").setFlagsFromString("--experimental-wasm-memory64");
  return knowsWideMemory();
}

/** The module that a page has in itself. */
function moduleOf(page) {
  const [, packed] = fs.readFileSync(page, "utf8").match(/id="packed-module">([^<]*)</);
  return new WebAssembly.Module(zlib.gunzipSync(Buffer.from(packed, "base64")));
}

/** What `act` answers, or nothing if the system refuses it. */
function unlessRefused(act) {
  try {
    return act();
  } catch (fault) {
    if (fault.errno === undefined) throw fault;
    return undefined;
  }
}

/** The files of the disk. */
const disk = {
  open(name) {
    const file = unlessRefused(() => fs.openSync(Buffer.from(name)));
    return file === undefined ? undefined : openedFile(file);
  },
};

function openedFile(file) {
  return {
    next(length) {
      const buffer = Buffer.alloc(length);
      const count = unlessRefused(() => fs.readSync(file, buffer));
      return count === undefined ? undefined : buffer.subarray(0, count);
    },
    close: () => fs.closeSync(file),
  };
}

/** Writes bytes to standard output, all of them unless it refuses. */
function put(bytes) {
  let taken = 0;
  while (taken < bytes.length) {
    const count = unlessRefused(() => fs.writeSync(1, bytes, taken));
    if (!count) return false;
    taken += count;
  }
  return true;
}

/** The words of this process, as the bytes that they are where the system tells that: not each byte is part of a text. */
function ownWords(words) {
  const command = unlessRefused(() => fs.readFileSync("/proc/self/cmdline"));
  if (command === undefined) return words;
  const whole = command.toString("latin1").split("\0").slice(0, -1);
  return words.length === 0 ? [] : whole.slice(-words.length).map((word) => Buffer.from(word, "latin1"));
}

/** The usage line of a program, from its source. */
function usageLine(program) {
  const file = { diva: "diva_cli/src/lines.rt", diva_lab: "diva_workbench/src/lab.rt" }[program];
  const source = fs.readFileSync(path.join(__dirname, "../crates", file), "utf8");
  return Buffer.from(source.match(`b"(usage: ${program} [^"]*)\\\\n"`)[1] + "\n");
}

/** Runs the page's program as `diva`: it is `diva_lab`, which does the same but for five commands more and its own usage line. */
function runAsDiva(module, words) {
  const isOfDiva = !["log", "draw", "judge", "inject", "rate"].includes(String(words[0]));
  const theirs = usageLine("diva_lab");
  return runProgram(module, isOfDiva ? words : [], disk, (piece) => put(theirs.equals(piece) ? usageLine("diva") : piece));
}

function putPicture(module, words) {
  const { status, bytes } = wholeRun(module, ["log", ...words], disk);
  const reader = new LogReader(Infinity);
  reader.take(bytes);
  put(Buffer.from(pictureText(reader.finish())));
  return status;
}

const [page, program, ...words] = process.argv.slice(2);
const ways = {
  diva: (module) => runAsDiva(module, ownWords(words)),
  diva_lab: (module) => runProgram(module, ownWords(words), disk, put),
  picture: (module) => putPicture(module, words),
};
if (!canRun()) process.exitCode = 1;
else if (page !== undefined) process.exitCode = ways[program](moduleOf(page));
