import { visibleText } from './texts.js';
import { byId, element, onceAFrame } from './elements.js';
import { hueOf } from './colours.js';

const ROW_HEIGHT = 26;
const SPARE_ROWS = 4;

/**
 * The list of the sources with their colours. Only the rows that can be seen are in the document. `onChoose` gets the
 * id of the source that is chosen, and whether the choice is final: those by arrows are not.
 */
export class Legend {
  constructor(onChoose) {
    this.element = byId('sources');
    this.filter = byId('source-filter');
    this.count = byId('source-count');
    this.onChoose = onChoose;
    this.sources = [];
    this.shown = [];
    this.current = -1;
    this.sizer = element('div', 'sizer');
    this.content = element('div', 'rows');
    this.element.append(this.sizer, this.content);
    this.askToDraw = onceAFrame(() => this.draw());
    this.listen();
    new ResizeObserver(() => this.draw()).observe(this.element);
  }

  listen() {
    this.element.addEventListener('scroll', () => this.askToDraw());
    this.element.addEventListener('click', (event) => {
      const row = event.target.closest('[role=option]');
      if (row !== null) this.onChoose(Number(row.dataset.source), true);
    });
    this.element.addEventListener('keydown', (event) => this.press(event));
    this.filter.addEventListener('input', () => this.refilter());
    this.filter.addEventListener('keydown', (event) => {
      if (event.key === 'ArrowDown' || event.key === 'Enter') {
        event.preventDefault();
        this.element.focus();
        if (this.shown.length > 0 && !this.shown.includes(this.current)) this.onChoose(this.shown[0], false);
      }
    });
  }

  /** Shows sources by their names. `hasContents` says whether there are contents of one. */
  show(sources, hasContents) {
    this.sources = sources;
    this.hasContents = hasContents;
    this.counts = null;
    this.current = -1;
    this.filter.value = '';
    this.filter.hidden = sources.length < 8;
    this.refilter();
  }

  /** Says how many tokens each source has. */
  setCounts(counts) {
    this.counts = counts;
    this.draw();
  }

  choose(source) {
    this.current = source;
    this.reveal();
  }

  refilter() {
    const wanted = this.filter.value.toLowerCase();
    this.shown = [];
    this.sources.forEach((name, source) => {
      if (name.toLowerCase().includes(wanted)) this.shown.push(source);
    });
    const total = this.sources.length.toLocaleString('en');
    this.count.textContent = wanted === '' ? total : `${this.shown.length.toLocaleString('en')} of ${total}`;
    this.sizer.style.height = `${this.shown.length * ROW_HEIGHT}px`;
    this.reveal();
  }

  press(event) {
    if (event.altKey || event.ctrlKey || event.metaKey || this.shown.length === 0) return;
    if (event.key === 'Enter' && this.current >= 0) {
      event.preventDefault();
      this.onChoose(this.current, true);
      return;
    }
    const last = this.shown.length - 1;
    const at = this.shown.indexOf(this.current);
    const page = Math.max(1, Math.floor(this.element.clientHeight / ROW_HEIGHT) - 1);
    const moves = {
      ArrowDown: Math.min(at + 1, last), ArrowUp: Math.max(at - 1, 0), Home: 0, End: last,
      PageDown: Math.min(at + page, last), PageUp: Math.max(at - page, 0),
    };
    if (!(event.key in moves)) return;
    event.preventDefault();
    this.onChoose(this.shown[moves[event.key]], false);
  }

  reveal() {
    const at = this.shown.indexOf(this.current);
    const { scrollTop: top, clientHeight: height } = this.element;
    if (at >= 0 && (at * ROW_HEIGHT < top || (at + 1) * ROW_HEIGHT > top + height)) {
      this.element.scrollTop = (at + 0.5) * ROW_HEIGHT - height / 2;
    }
    this.draw();
  }

  draw() {
    const first = Math.max(0, Math.floor(this.element.scrollTop / ROW_HEIGHT) - SPARE_ROWS);
    const count = Math.ceil(this.element.clientHeight / ROW_HEIGHT) + 2 * SPARE_ROWS;
    const drawn = this.shown.slice(first, first + count).map((source, at) => this.drawRow(source, first + at));
    this.content.style.top = `${first * ROW_HEIGHT}px`;
    this.content.replaceChildren(...drawn);
    if (this.content.querySelector('[aria-selected=true]') === null) this.element.removeAttribute('aria-activedescendant');
    else this.element.setAttribute('aria-activedescendant', 'legend-active');
  }

  drawRow(source, place) {
    const name = this.sources[source];
    const hasContents = this.hasContents(source);
    const row = element('div', hasContents ? 'source' : 'source empty');
    const [folder, base] = split(visibleText(name));
    const swatch = element('span', 'swatch');
    swatch.style.setProperty('--hue', hueOf(source).toFixed(2));
    row.append(swatch, element('span', 'base', base || '(no name)'), element('span', 'folder', folder), this.drawCount(source));
    row.dataset.source = source;
    row.title = visibleText(name) + (hasContents ? '' : ' (no contents)');
    row.setAttribute('role', 'option');
    row.setAttribute('aria-label', row.title);
    row.setAttribute('aria-posinset', place + 1);
    row.setAttribute('aria-setsize', this.shown.length);
    row.setAttribute('aria-selected', String(source === this.current));
    if (source === this.current) row.id = 'legend-active';
    return row;
  }

  drawCount(source) {
    return element('span', 'tokens', this.counts === null ? '' : this.counts(source).toLocaleString('en'));
  }
}

/** The folder of a path or URL, and its last part. */
function split(path) {
  const at = path.replace(/[?#].*$/, '').lastIndexOf('/') + 1;
  return [path.slice(0, at), path.slice(at)];
}
