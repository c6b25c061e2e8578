// Runs the proved program: what it asks of its host, by five imports, whether that is a page, a worker of one, or node.

/**
 * Files in memory, by the bytes of each name. `open` answers an opened file, or nothing if none can be opened: `next` gives so many bytes at
 * most, none only at the end, and nothing at all if the file can't be read.
 */
function filesInMemory(contents) {
  return {
    open(name) {
      const bytes = contents[new TextDecoder().decode(name)];
      return bytes && openedBytes(bytes);
    },
  };
}

function openedBytes(bytes) {
  let read = 0;
  return {
    next(length) {
      const piece = bytes.subarray(read, read + length);
      read += piece.length;
      return piece;
    },
    close() {},
  };
}

/**
 * The five imports of page/rt.c. Places and lengths are plain numbers of 32 bits.
 *
 * `view` gives the instance's memory as it now stands, `words` are those behind the program's name, each a text or its bytes, `files` opens
 * files by the bytes of their names, and `take` is handed each piece of text as it is written, and answers false if it could not write it;
 * the piece is the taker's own.
 */
function hostImports(view, words, files, take) {
  const opened = [];
  const bytesOf = (from, length) => view().slice(from >>> 0, (from >>> 0) + length);
  const put = (bytes, to) => view().set(bytes, to >>> 0);
  const spoken = ["diva", ...words].map((word) => (typeof word === "string" ? new TextEncoder().encode(word) : word));
  return {
    write: (file, from, length) => (take(bytesOf(from, length)) === false ? -1 : length),
    open(name, length) {
      const file = files.open(bytesOf(name, length));
      // The numbers 0 to 2 are those of standard input, output and error.
      return file === undefined ? -1 : opened.push(file) + 2;
    },
    read(file, to, length) {
      const next = opened[file - 3].next(length);
      if (next === undefined) return -1;
      put(next, to);
      return next.length;
    },
    close(file) {
      opened[file - 3].close();
      return 0;
    },
    arg(place, to, length) {
      const word = spoken[place];
      if (word === undefined) return -1;
      if (word.length > length) return -2;
      put(word, to);
      return word.length;
    },
  };
}

/** Runs the program once, in an instance of its own, and answers its status. */
function runProgram(module, words, files, take) {
  const view = () => new Uint8Array(instance.exports.memory.buffer);
  const instance = new WebAssembly.Instance(module, { host: hostImports(view, words, files, take) });
  return instance.exports.__original_main();
}

/** The pieces of a text, one behind the other. */
function joined(pieces) {
  const bytes = new Uint8Array(pieces.reduce((length, piece) => length + piece.length, 0));
  let place = 0;
  for (const piece of pieces) {
    bytes.set(piece, place);
    place += piece.length;
  }
  return bytes;
}

/** Runs the program once, and answers its status with all that it wrote. */
function wholeRun(module, words, files) {
  const pieces = [];
  const status = runProgram(module, words, files, (piece) => pieces.push(piece));
  return { status, bytes: joined(pieces) };
}

// Under node this file is a module; in a page it is a script, and the head of the worker's.
if (typeof module !== "undefined") module.exports = { runProgram, wholeRun };
