// A pool of workers, as many as there are processors, that fetch and decode windows.

// How many jobs a worker has at a time: one's file is fetched while another's is decoded.
const JOBS_EACH = 2;
// A worker's memory never shrinks, so one with more than this makes way for another.
const MOST_MEMORY = 256 << 20;
// What isn't urgent belongs to no batch, and comes behind all that does.
const NO_BATCH = -1;

class Pool {
  #module;
  #workers = [];
  #waiting = [];
  #next = 0;
  #batch = 0;
  #isBatchOpen = false;
  #fault = null;

  // `module` is the promise of a WebAssembly.Module: the workers start while it is on its way.
  constructor(module, count) {
    this.#module = module;
    for (let i = 0; i < count; i++) this.#workers.push(this.#start());
  }

  // Asks for a window, by a job that worker.js knows. What is asked for in one go is a batch: the newest batch comes
  // first, and of a batch what was asked for first. `made` is the promise of what comes, and `drop` gives up on it,
  // after which nothing comes.
  ask(job, { isUrgent }) {
    const asked = { id: this.#next++, job, batch: isUrgent ? this.#batchNow() : NO_BATCH, isDropped: false };
    asked.made = new Promise((done, refuse) => Object.assign(asked, { done, refuse }));
    asked.drop = () => {
      asked.isDropped = true;
      this.#waiting = this.#waiting.filter((it) => it !== asked);
    };
    if (this.#fault) {
      asked.refuse(this.#fault);
    } else {
      this.#waiting.push(asked);
      this.#deal();
    }
    return asked;
  }

  #batchNow() {
    if (!this.#isBatchOpen) {
      this.#batch++;
      this.#isBatchOpen = true;
      queueMicrotask(() => { this.#isBatchOpen = false; });
    }
    return this.#batch;
  }

  #start() {
    const thread = new Worker('worker.js', { type: 'module' });
    const worker = { thread, running: new Map(), isLast: false };
    this.#module.then((module) => thread.postMessage({ module }), (error) => this.#end(error.message));
    thread.onmessage = ({ data }) => this.#answer(worker, data);
    thread.onerror = (event) => this.#end(event.message || "a worker can't be started");
    return worker;
  }

  // Gives waiting jobs to the workers that have the fewest.
  #deal() {
    for (;;) {
      const free = this.#workers.filter((it) => it.running.size < JOBS_EACH && !it.isLast);
      if (free.length === 0 || this.#waiting.length === 0) return;
      const worker = free.reduce((a, b) => (b.running.size < a.running.size ? b : a));
      const asked = this.#waiting.reduce((a, b) => (b.batch > a.batch ? b : a));
      this.#waiting = this.#waiting.filter((it) => it !== asked);
      worker.running.set(asked.id, asked);
      worker.thread.postMessage({ id: asked.id, ...asked.job });
    }
  }

  #answer(worker, { id, made, fault, number }) {
    const asked = worker.running.get(id);
    worker.running.delete(id);
    if (made && made.memory > MOST_MEMORY) worker.isLast = true;
    if (worker.isLast && worker.running.size === 0) this.#replace(worker);
    this.#deal();
    if (asked.isDropped) return;
    if (made) asked.done(made);
    else asked.refuse(Object.assign(new Error(fault), { number }));
  }

  #replace(worker) {
    worker.thread.terminate();
    this.#workers[this.#workers.indexOf(worker)] = this.#start();
  }

  // Where one worker can't begin, none can: all is refused from then on.
  #end(fault) {
    this.#fault = new Error(fault);
    const running = this.#workers.flatMap((worker) => [...worker.running.values()]);
    for (const asked of [...running, ...this.#waiting]) {
      if (!asked.isDropped) asked.refuse(this.#fault);
    }
    this.#waiting = [];
  }
}

// The page's pool. Its workers start, and the module is compiled, while Leaflet and the list are on their way.
export const pool = new Pool(WebAssembly.compileStreaming(fetch('jk.wasm')), navigator.hardwareConcurrency || 4);
