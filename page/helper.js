// Runs the program in workers beside the page.

const utf8 = (text) => new TextEncoder().encode(text);

const workerAddress = URL.createObjectURL(
  new Blob([parts.host, parts.log, parts.worker], { type: "text/javascript" }),
);

/** Has a worker, which runs the program, one job at a time. */
class Helper {
  /** The program's module, once it is compiled. */
  static module = null;

  /** Runs the program on the words and files; answers null where it is ended before. `progress` hears what comes meanwhile. */
  run(words, files, rows = 0, progress = () => {}) {
    this.end();
    this.worker ??= new Worker(workerAddress);
    return new Promise((resolve) => {
      this.settle = resolve;
      this.worker.onmessage = ({ data }) => {
        if (data.result || data.broken) this.answer(data.result ?? { status: -1, bytes: utf8(data.broken) });
        else progress(data);
      };
      this.worker.onerror = (event) => this.answer({ status: -1, bytes: utf8(event.message ?? "the worker has stopped") });
      this.worker.postMessage({ module: Helper.module, words, files, rows });
    });
  }

  answer(result) {
    const { settle } = this;
    this.settle = null;
    settle?.(result);
  }

  /** Ends the job, if there is one, and its worker with it. */
  end() {
    if (!this.settle) return;
    this.worker.terminate();
    this.worker = null;
    this.answer(null);
  }
}
