// The head of a worker is host.js and log.js; this is its last part. It runs the program for the page, so that the page does
// not wait: each job is one run, and a worker that is ended ends its run with it.

/** How many milliseconds lie between two messages that say how far a run is, at least. */
const PAUSE = 200;

/** Runs a job whose text is wanted as it is. */
function textOf(job) {
  return wholeRun(job.module, job.words, filesInMemory(job.files));
}

/** Runs a job whose text is a log, and tells the page meanwhile how many cycles it has. */
function logOf(job) {
  const reader = new LogReader(job.rows);
  const pieces = [];
  let last = performance.now();
  let sent = false;
  const status = runProgram(job.module, job.words, filesInMemory(job.files), (piece) => {
    reader.take(piece);
    if (reader.cycles === 0) pieces.push(piece);
    const now = performance.now();
    if (now - last < PAUSE) return;
    last = now;
    // The rows are sent while more of them come, and once more when all are there that are kept.
    postMessage({ cycles: reader.cycles, log: sent ? undefined : reader.finish() });
    sent = reader.isFull;
  });
  return { status, log: reader.finish(), bytes: joined(pieces) };
}

self.onmessage = ({ data: job }) => {
  try {
    postMessage({ result: job.rows ? logOf(job) : textOf(job) });
  } catch (fault) {
    postMessage({ broken: String(fault) });
  }
};
