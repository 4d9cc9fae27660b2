// The machine as the page sees it: requests go to a worker, and come back as promises. Of requests with one name the
// newest wins.

/** What a request ends with if it was stopped, or another of its name came after it. */
export class Stopped extends Error {}

// A request of the same name that has run so long is ended for a newer one; a shorter one is waited for.
const PATIENCE = 200;

export class Machine {
  constructor(module, workerUrl) {
    Object.assign(this, { module, workerUrl, waiting: [], running: null, count: 0 });
    this.begin();
  }

  begin() {
    this.worker = new Worker(this.workerUrl);
    this.worker.onmessage = ({ data }) => this.take(data);
    this.worker.onerror = (event) => this.beginAnew(new Error(event.message));
    this.worker.postMessage({ module: this.module });
  }

  // Ends the worker in the middle of what it does, and goes on with a new one.
  beginAnew(error) {
    this.worker.terminate();
    this.running?.reject(error);
    this.running = null;
    this.begin();
    this.next();
  }

  next() {
    if (this.running || !this.waiting.length) return;
    this.running = this.waiting.shift();
    this.running.began = performance.now();
    const { id, words, texts } = this.running;
    this.worker.postMessage({ id, words, texts });
  }

  take({ id, answer, failed }) {
    if (this.running?.id !== id) return;
    const { resolve, reject } = this.running;
    this.running = null;
    if (failed) reject(new Error(failed));
    else resolve(answer);
    this.next();
  }

  // Forgets the requests that wait, or those of a name.
  drop(name = null) {
    const old = this.waiting.filter((it) => !name || it.name === name);
    this.waiting = this.waiting.filter((it) => !old.includes(it));
    old.forEach((it) => it.reject(new Stopped()));
  }

  /** Asks for a command. A request with a name takes the place of an earlier one with that name. */
  ask(words, texts, name = null) {
    return new Promise((resolve, reject) => {
      if (name) this.drop(name);
      this.waiting.push({ id: ++this.count, words, texts, name, resolve, reject });
      const isOld = name && this.running?.name === name && performance.now() - this.running.began > PATIENCE;
      if (isOld) this.beginAnew(new Stopped());
      else this.next();
    });
  }

  /** Ends what is running, and forgets what waits. */
  stop() {
    this.drop();
    if (this.running) this.beginAnew(new Stopped());
  }
}
