/** How long the page may be busy at a time, in milliseconds. */
const SLICE = 8;

/**
 * Runs a generator to its end in slices, so that the page stays responsive. The first slice runs at once: short work is
 * done when the constructor returns. After each slice `onProgress` gets what was yielded last.
 */
export class Job {
  #steps;
  #onDone;
  #onProgress;
  #timer = 0;

  constructor(steps, onDone, onProgress = () => {}) {
    this.#steps = steps;
    this.#onDone = onDone;
    this.#onProgress = onProgress;
    this.#run();
  }

  #run() {
    const end = performance.now() + SLICE;
    for (;;) {
      const { done, value } = this.#steps.next();
      if (done) {
        this.#onDone(value);
        return;
      }
      if (performance.now() >= end) {
        this.#timer = setTimeout(() => this.#run(), 0);
        this.#onProgress(value);
        return;
      }
    }
  }

  /** Ends the work, if it goes on. */
  cancel() {
    clearTimeout(this.#timer);
    this.#steps.return();
  }
}
