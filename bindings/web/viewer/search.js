import { Job } from './slices.js';
import { byId } from './elements.js';

/** How many characters, names or tokens are searched between two yields. */
const CHARACTERS_AT_ONCE = 1 << 16;
const NAMES_AT_ONCE = 512;
const TOKENS_AT_ONCE = 4096;
const MOST_HITS = 100_000;

/**
 * Searches without regard to case, in slices. A search begins when the words or the scope have changed; its first hit is
 * shown as soon as it is found.
 */
export class Search {
  constructor(page) {
    this.page = page;
    this.query = byId('query');
    this.scope = byId('scope');
    this.count = byId('found-count');
    this.forget();
    this.listen();
  }

  listen() {
    byId('search').addEventListener('submit', (event) => {
      event.preventDefault();
      this.go(1);
    });
    byId('previous').addEventListener('click', () => this.go(-1));
    this.query.addEventListener('keydown', (event) => {
      if (event.key === 'Escape') this.page.generated.element.focus();
      if (event.key === 'Enter' && event.shiftKey) {
        event.preventDefault();
        this.go(-1);
      }
    });
  }

  /** Forgets what was found: the texts have changed. */
  forget() {
    this.job?.cancel();
    this.job = null;
    this.key = '';
    this.hits = [];
    this.at = -1;
    this.isDone = true;
    this.count.textContent = '';
  }

  go(step) {
    const key = `${this.scope.value} ${this.query.value}`;
    if (key === this.key) {
      if (this.hits.length > 0) this.move(step);
      return;
    }
    this.forget();
    this.page.clearFound();
    this.key = key;
    if (this.query.value === '' || this.page.map === null) return;
    this.isDone = false;
    this.count.textContent = 'Searching\u2026';
    if (this.scope.value === 'names') this.page.whenRead(() => key === this.key && this.start(step));
    else this.start(step);
  }

  start(step) {
    const end = () => {
      this.isDone = true;
      this.progress(step);
      if (this.hits.length === 0) this.count.textContent = 'Not found';
    };
    this.job = new Job(this.find(), end, () => this.progress(step));
  }

  /** Shows the first hit; going back, the last one, once all are found. */
  progress(step) {
    if (this.at < 0 && this.hits.length > 0 && (step > 0 || this.isDone)) this.move(step);
    else this.describe();
  }

  move(step) {
    const from = this.at < 0 && step < 0 ? 0 : this.at;
    this.at = (from + step + this.hits.length) % this.hits.length;
    this.describe();
    this.show(this.hits[this.at]);
  }

  describe() {
    if (this.at < 0) return;
    const most = this.hits.length === MOST_HITS ? '+' : '';
    const more = this.isDone ? most : '\u2026';
    this.count.textContent = `${this.at + 1} of ${this.hits.length}${more}`;
  }

  * find() {
    const words = this.query.value;
    const pattern = new RegExp(words.replace(/[\\^$.*+?()[\]{}|]/g, '\\$&'), 'gi');
    if (this.scope.value === 'names') yield* this.findNamed(pattern);
    else if (this.scope.value === 'generated') yield* this.findText(this.page.generatedText ?? '', pattern, words.length, -1);
    else yield* this.findInSources(pattern, words.length);
  }

  * findInSources(pattern, length) {
    const { sourceCount } = this.page.map;
    for (let source = 0; source < sourceCount; source += 1) {
      yield* this.findText(this.page.contentsOf(source) ?? '', pattern, length, source);
      yield;
    }
  }

  * findText(text, pattern, length, source) {
    for (let from = 0; from < text.length; from += CHARACTERS_AT_ONCE) {
      // a hit that begins in this part may end in the next one
      const part = text.slice(from, from + CHARACTERS_AT_ONCE + length - 1);
      for (const match of part.matchAll(pattern)) {
        if (match.index < CHARACTERS_AT_ONCE) this.hits.push({ source, offset: from + match.index, length });
        if (this.hits.length === MOST_HITS) return;
      }
      yield;
    }
  }

  /** The tokens whose name matches. */
  * findNamed(pattern) {
    const { map, tokens } = this.page;
    const count = map.nameCount;
    const isWanted = new Uint8Array(count);
    for (let name = 0; name < count; name += 1) {
      isWanted[name] = (this.page.nameOf(name) ?? '').search(pattern) >= 0 ? 1 : 0;
      if (name % NAMES_AT_ONCE === 0) yield;
    }
    for (let token = 0; token < tokens.count; token += 1) {
      if (isWanted[tokens.name(token)] === 1) this.hits.push({ token });
      if (this.hits.length === MOST_HITS) return;
      if (token % TOKENS_AT_ONCE === 0) yield;
    }
  }

  show(hit) {
    this.page.clearFound();
    if (hit.token !== undefined) this.page.select(this.page.tokens.link(hit.token));
    else if (hit.source < 0) this.showIn(this.page.generated, hit);
    else this.page.showSource(hit.source, () => this.showIn(this.page.source, hit));
  }

  showIn(pane, { offset, length }) {
    if (pane.lines === null) return;
    const { line, column } = pane.lines.position(offset);
    const link = pane.pieces === null ? null : pane.pieces.closestOnLine(line, column);
    pane.setFound({ line, from: column, to: column + length });
    if (link !== null) this.page.select(link);
    pane.reveal(line, column);
  }
}
