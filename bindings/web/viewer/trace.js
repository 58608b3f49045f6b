import { Job } from './slices.js';
import { NONE } from './tokens.js';
import { baseName, parseFrame } from './frames.js';
import { countText, positionText, visibleText } from './texts.js';
import { byId, element } from './elements.js';

const [LINE, COLUMN, ORIGINAL_LINE, ORIGINAL_COLUMN, SOURCE, , IS_RANGE, FOUND] = [0, 1, 2, 3, 4, 5, 6, 7];
const DELAY = 150;
const MOST_LINES = 5000;
/** A line of more tokens has no original line of its own. */
const MOST_TOKENS = 2000;

/** The panel of a stack trace: what is pasted, and each of its lines with the original position as a link. */
export class Trace {
  constructor(page) {
    this.page = page;
    this.panel = byId('trace');
    this.toggle = byId('trace-toggle');
    this.input = byId('trace-input');
    this.list = byId('trace-lines');
    this.note = byId('trace-note');
    this.timer = 0;
    this.job = null;
    this.listen();
  }

  listen() {
    this.toggle.addEventListener('click', () => this.open(this.panel.hidden));
    byId('trace-close').addEventListener('click', () => this.open(false));
    this.panel.addEventListener('keydown', (event) => {
      if (event.key === 'Escape') this.open(false);
    });
    this.input.addEventListener('input', () => {
      clearTimeout(this.timer);
      this.timer = setTimeout(() => this.resolve(), DELAY);
    });
    this.list.addEventListener('click', (event) => {
      const link = event.target.closest('.link');
      if (link === null) return;
      for (const each of this.list.querySelectorAll('[aria-current]')) each.removeAttribute('aria-current');
      link.setAttribute('aria-current', 'true');
      this.page.selectPosition(Number(link.dataset.line), Number(link.dataset.column));
    });
  }

  open(isOpen) {
    this.panel.hidden = !isOpen;
    this.toggle.setAttribute('aria-expanded', String(isOpen));
    (isOpen ? this.input : this.toggle).focus();
  }

  /** Resolves the lines anew. */
  resolve() {
    this.job?.cancel();
    this.list.replaceChildren();
    this.note.textContent = '';
    if (this.input.value.trim() === '' || this.page.map === null) return;
    const counts = { frames: 0, resolved: 0 };
    const describe = () => {
      this.note.textContent = this.describe(counts);
    };
    this.job = new Job(this.drawLines(counts), describe, describe);
  }

  * drawLines(counts) {
    const lines = this.input.value.replace(/\s+$/, '').split(/\r\n|[\n\r]/).slice(0, MOST_LINES);
    const frames = lines.map(parseFrame);
    yield;
    const names = this.page.generatedNames();
    const isNamed = (frame) => names.has(baseName(frame.file));
    counts.isOther = names.size > 0 && !frames.some((frame) => frame !== null && isNamed(frame));
    for (const [at, frame] of frames.entries()) {
      const isOurs = frame !== null && (counts.isOther || names.size === 0 || isNamed(frame));
      const original = isOurs ? this.originalOf(frame) : null;
      if (frame !== null) counts.frames += 1;
      if (original !== null) counts.resolved += 1;
      this.list.append(original === null ? drawPlain(lines[at], frame) : drawFrame(frame, original));
      yield;
    }
  }

  describe({ frames, resolved, isOther }) {
    if (frames === 0) return 'No line is a frame with a position.';
    const all = `${resolved} of ${countText(frames, 'frame')} resolved`;
    const [name] = this.page.generatedNames();
    return isOther ? `${all}. No frame names ${visibleText(name)}: all were looked up in its map.` : `${all}.`;
  }

  /** The original position of a frame: the text of it, and a generated position; null if there is none. */
  originalOf(frame) {
    const line = frame.line - 1;
    if (line < 0 || line >= NONE) return null;
    return frame.column === null ? this.originalOfLine(line) : this.originalOfPosition(line, frame.column - 1);
  }

  /** A token of an earlier line counts only if it is a range token. */
  originalOfPosition(line, column) {
    if (column < 0 || column >= NONE) return null;
    const words = this.page.map.closestTokens(Uint32Array.of(line, column));
    const source = this.page.sourceName(words[SOURCE]);
    if (words[FOUND] === 0 || source === null || (words[LINE] !== line && words[IS_RANGE] === 0)) return null;
    const place = positionText(words[ORIGINAL_LINE], words[ORIGINAL_COLUMN]);
    return { text: `${visibleText(source)}:${place}`, line: words[LINE], column: words[COLUMN] };
  }

  /** The original line of a generated one, if all of its tokens with a source come from that line. */
  originalOfLine(line) {
    const { lookups } = this.page;
    let found = null;
    let link = lookups.firstFrom(line, 0);
    for (let read = 0; link !== null && link.at.line === line; read += 1) {
      const isOther = found !== null && link.source >= 0 && (link.source !== found.source || link.line !== found.line);
      if (isOther || read === MOST_TOKENS) return null;
      if (found === null && link.source >= 0) found = link;
      link = lookups.firstFrom(line, link.at.column + 1);
    }
    if (found === null) return null;
    const source = visibleText(this.page.sourceName(found.source));
    return { text: `${source}:${found.line + 1}`, ...found.at };
  }
}

function drawPlain(line, frame) {
  const item = element('li', frame === null ? '' : 'unresolved', visibleText(line) || '\u00a0');
  if (frame !== null) item.title = 'no original position';
  return item;
}

/** A line with a frame, whose location is a link with the original position as its text. */
function drawFrame(frame, original) {
  const item = element('li');
  const link = element('button', 'link', original.text);
  link.type = 'button';
  link.dataset.line = original.line;
  link.dataset.column = original.column;
  link.title = visibleText(frame.text.slice(frame.start, frame.end));
  item.append(visibleText(frame.text.slice(0, frame.start)), link, visibleText(frame.text.slice(frame.end)));
  return item;
}
