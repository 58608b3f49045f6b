import { WholeRows, WrappedRows, visibleText } from './texts.js';
import { isLinked } from './tokens.js';
import { byId, element, onceAFrame } from './elements.js';
import { paint } from './colours.js';

const ROW_HEIGHT = 20;
/** Browsers limit the size of an element, the strictest to about 17 million pixels. Larger texts scroll in proportion. */
const LARGEST = 8e6;
/** How many rows are drawn above the visible ones, and as many below; how many columns beside them. */
const SPARE_ROWS = 4;
const SPARE_COLUMNS = 40;
const NARROWEST = 16;

/**
 * A scrolled text with its pieces, `Lookups` or `Originals`. Only the rows and columns that can be seen are in the
 * document.
 *
 * The page gets `pick(pane, link)` for a click, `hover(pane, link)` for the mouse over a piece (null for none), and
 * `press(pane, event)` for a key; it has the links `selected` and `hovered`, and `nameOf` the id of a name.
 */
export class Pane {
  constructor(id, page) {
    this.element = byId(id);
    this.page = page;
    this.lines = null;
    this.rows = null;
    this.pieces = null;
    this.found = null;
    /** The rows in the document by number, and the links of the tokens in them. */
    this.drawn = new Map();
    this.links = new WeakMap();
    this.isWrapping = true;
    this.sizer = element('div', 'sizer');
    this.content = element('div', 'rows');
    this.askToDraw = onceAFrame(() => this.draw());
    this.listen();
    new ResizeObserver(() => this.layOut()).observe(this.element);
  }

  listen() {
    this.element.addEventListener('scroll', () => this.askToDraw());
    this.element.addEventListener('click', (event) => this.page.pick(this, this.linkOf(event)));
    this.element.addEventListener('mouseover', (event) => {
      if (this.page.movesMouse(event)) this.page.hover(this, this.linkOf(event));
    });
    this.element.addEventListener('mouseleave', (event) => {
      if (this.page.movesMouse(event)) this.page.hover(this, null);
    });
    this.element.addEventListener('keydown', (event) => this.page.press(this, event));
  }

  linkOf(event) {
    const token = event.target.closest('.token');
    return token === null ? null : this.links.get(token);
  }

  // What is shown

  show(lines, pieces) {
    this.lines = lines;
    this.pieces = pieces;
    this.rows = null;
    this.found = null;
    this.drawn.clear();
    this.element.replaceChildren(this.sizer, this.content);
    this.element.scrollTo(0, 0);
    this.layOut();
  }

  /** Sets the pieces of the text that is shown. */
  setPieces(pieces) {
    this.pieces = pieces;
    this.redraw();
  }

  /** Marks a part of a line as found, or nothing. */
  setFound(found) {
    if (this.found === found) return;
    this.found = found;
    this.redraw();
  }

  showNotice(...content) {
    this.lines = null;
    this.rows = null;
    this.pieces = null;
    const notice = element('div', 'notice');
    notice.append(...content);
    this.element.replaceChildren(notice);
    this.element.removeAttribute('aria-activedescendant');
  }

  setWrapping(isWrapping) {
    this.isWrapping = isWrapping;
    this.layOut();
  }

  // Rows and pixels

  /** Cuts the lines into rows. The position at the top stays there. */
  layOut() {
    if (this.lines === null) return;
    this.unit = this.measureUnit();
    const digits = Math.max(5, String(this.lines.count).length, this.isWrapping ? String(this.lines.longest).length + 1 : 0);
    this.gutter = Math.ceil((digits + 1) * this.unit + 10);
    const fitting = Math.floor((this.element.clientWidth - this.gutter - 4) / this.unit);
    const width = this.isWrapping ? Math.max(NARROWEST, fitting) : Infinity;
    if (this.rows === null || this.rows.width !== width) this.cut(width);
    this.draw();
  }

  cut(width) {
    this.drawn.clear();
    const top = this.rows === null ? null : this.rows.at(this.topRow());
    this.rows = width === Infinity ? new WholeRows(this.lines) : new WrappedRows(this.lines, width);
    this.sizer.style.height = `${Math.min(this.height(), LARGEST)}px`;
    this.widest = 0;
    this.setWidth(width === Infinity ? this.lines.longest * this.unit : 0);
    this.element.scrollLeft = 0;
    if (top !== null) this.scrollToRow(this.rows.of(top.line, top.from));
  }

  setWidth(widest) {
    this.widest = Math.ceil(widest);
    this.sizer.style.width = widest === 0 ? '' : `${Math.min(this.width(), LARGEST)}px`;
  }

  height() {
    return this.rows.count * ROW_HEIGHT;
  }

  width() {
    return this.gutter + this.widest + 2 * this.unit;
  }

  /** The width of a column in pixels. */
  measureUnit() {
    const row = element('div', 'row');
    const probe = element('span', '', 'x'.repeat(100));
    row.append(probe);
    this.content.append(row);
    const width = probe.getBoundingClientRect().width / 100;
    row.remove();
    return width || 8;
  }

  /** How many pixels the text moves for each pixel of scrolling. */
  ratio(total, seen) {
    return total <= LARGEST ? 1 : (total - seen) / (LARGEST - seen);
  }

  ratioDown() {
    return this.ratio(this.height(), this.element.clientHeight);
  }

  ratioAcross() {
    return this.ratio(this.width(), this.element.clientWidth);
  }

  /** Which pixel of the text is at the left. */
  left() {
    return this.element.scrollLeft * this.ratioAcross();
  }

  topRow() {
    return Math.min(Math.floor(this.element.scrollTop * this.ratioDown() / ROW_HEIGHT), this.rows.count - 1);
  }

  scrollToRow(row) {
    this.element.scrollTop = Math.max(0, row * ROW_HEIGHT) / this.ratioDown();
  }

  // Drawing

  /** Draws all rows anew. */
  redraw() {
    this.drawn.clear();
    this.draw();
  }

  /** Draws the visible rows that are not in the document. */
  draw() {
    if (this.rows === null || this.element.clientHeight === 0) return;
    const top = this.element.scrollTop;
    const first = Math.max(0, this.topRow() - SPARE_ROWS);
    const seen = Math.ceil(this.element.clientHeight / ROW_HEIGHT) + 1;
    const last = Math.min(this.rows.count, this.topRow() + seen + SPARE_ROWS);
    const drawn = new Map();
    for (let row = first; row < last; row += 1) drawn.set(row, this.rowAt(row));
    this.drawn = drawn;
    this.content.replaceChildren(...Array.from(drawn.values(), (row) => row.element));
    this.content.style.top = `${top - (top * this.ratioDown() - first * ROW_HEIGHT)}px`;
    this.content.style.width = this.sizer.style.width;
    if (this.rows.width === Infinity) this.makeRoom();
    this.mark();
  }

  /** A row as it is drawn, with its range. */
  rowAt(row) {
    const range = this.rangeOf(row);
    const drawn = this.drawn.get(row);
    if (drawn === undefined || drawn.range.from !== range.from || drawn.range.to !== range.to) {
      return { range, element: this.drawRow(range) };
    }
    this.shift(drawn.element.lastChild, range);
    return drawn;
  }

  /** Tabs and wide characters make a row wider than its columns. */
  makeRoom() {
    let widest = this.widest;
    for (const text of this.content.querySelectorAll('.text:not(.cut)')) widest = Math.max(widest, text.offsetWidth);
    if (widest === this.widest) return;
    this.setWidth(widest);
    this.content.style.width = this.sizer.style.width;
  }

  /** The columns of a row to draw. */
  rangeOf(row) {
    if (this.rows.width !== Infinity) return this.rows.at(row);
    const first = Math.floor(this.left() / this.unit);
    const seen = Math.ceil(this.element.clientWidth / this.unit);
    return this.rows.at(row, first - SPARE_COLUMNS, first + seen + SPARE_COLUMNS);
  }

  drawRow(range) {
    const made = element('div', 'row');
    const text = element('span', 'text');
    made.setAttribute('role', 'presentation');
    text.setAttribute('role', 'presentation');
    for (const part of cutParts(this.partsOf(range), range.line, this.found)) text.append(this.drawPart(range.line, part));
    this.shift(text, range);
    made.append(this.drawNumber(range), text);
    return made;
  }

  partsOf(range) {
    if (this.pieces !== null) return this.pieces.partsOfRow(range);
    return range.from < range.to ? [{ from: range.from, to: range.to, link: null }] : [];
  }

  /** Moves the text of a row to its columns. */
  shift(text, { line, from }) {
    if (this.rows.width !== Infinity) return;
    const isCut = this.rows.isCut(line);
    text.classList.toggle('cut', isCut);
    text.style.left = `${this.element.scrollLeft - this.left() + (isCut ? from * this.unit : 0)}px`;
  }

  /** The number of the line in its first row; in further rows, the column at which the row begins. */
  drawNumber({ line, from }) {
    const isFirst = from === 0 || this.rows.width === Infinity;
    const number = element('span', 'number', isFirst ? String(line + 1) : `:${from + 1}`);
    number.style.width = `${this.gutter}px`;
    number.setAttribute('aria-hidden', 'true');
    return number;
  }

  drawPart(line, part) {
    const text = visibleText(this.lines.slice(line, part.from, part.to));
    if (part.link === null) return part.isFound ? element('span', 'found', text) : document.createTextNode(text);
    return this.drawToken(part, text);
  }

  drawToken({ link, isFound }, text) {
    const token = element('span', isFound ? 'token found' : 'token', text);
    const name = this.page.nameOf(link.name);
    this.links.set(token, link);
    token.setAttribute('role', 'option');
    const place = this.pieces.place(link);
    if (place >= 0) token.setAttribute('aria-posinset', place + 1);
    token.setAttribute('aria-setsize', this.pieces.count);
    if (link.source < 0) token.classList.add('unmapped');
    else paint(token, link);
    if (name !== null) {
      token.classList.add('named');
      token.title = `name ${visibleText(name)}`;
    }
    return token;
  }

  /** Marks the drawn pieces that are selected or hovered, or linked to such a piece. */
  mark() {
    if (this.pieces === null) return;
    const { selected, hovered } = this.page;
    let active = null;
    for (const token of this.content.querySelectorAll('.token')) {
      const link = this.links.get(token);
      const isSelected = selected !== null && this.pieces.isSame(link, selected);
      token.classList.toggle('selected', isSelected);
      token.classList.toggle('linked', !isSelected && isLinked(link, selected));
      token.classList.toggle('hovered', isLinked(link, hovered));
      token.setAttribute('aria-selected', String(isSelected));
      token.removeAttribute('id');
      if (isSelected && active === null) active = token;
    }
    this.markActive(active);
  }

  markActive(token) {
    if (token === null) {
      this.element.removeAttribute('aria-activedescendant');
      return;
    }
    token.id = `${this.element.id}-active`;
    this.element.setAttribute('aria-activedescendant', token.id);
  }

  /** Draws the pane, and scrolls to a position if it is not visible. */
  reveal(line, column) {
    if (this.rows === null) return;
    const row = this.rows.of(line, column);
    const seen = Math.floor(this.element.clientHeight / ROW_HEIGHT);
    const top = this.element.scrollTop * this.ratioDown() / ROW_HEIGHT;
    if (row < top || row + 1 > top + seen) this.scrollToRow(row - Math.floor(seen / 3));
    if (this.rows.width === Infinity && row === line) this.revealColumn(row, column);
    this.draw();
  }

  revealColumn(row, column) {
    const room = this.element.clientWidth - this.gutter;
    const at = this.pixelOf(row, Math.min(column, this.lines.length(row)));
    if (at >= this.left() && at + 4 * this.unit <= this.left() + room) return;
    this.element.scrollLeft = Math.max(0, at - room / 3) / this.ratioAcross();
  }

  /** Which pixel of its row a column begins at. */
  pixelOf(row, column) {
    if (this.rows.isCut(row)) return column * this.unit;
    const made = element('div', 'row');
    const text = element('span', 'text', visibleText(this.lines.slice(row, 0, column)));
    made.append(text);
    this.content.append(made);
    const width = text.getBoundingClientRect().width;
    made.remove();
    return width;
  }
}

/** The parts, cut where the found text begins and ends. */
function cutParts(parts, line, found) {
  if (found === null || found.line !== line) return parts;
  const cut = [];
  for (const part of parts) {
    const bounds = [part.from, found.from, found.to, part.to].map((at) => Math.min(Math.max(at, part.from), part.to));
    for (let i = 0; i < 3; i += 1) {
      if (bounds[i] < bounds[i + 1]) cut.push({ ...part, from: bounds[i], to: bounds[i + 1], isFound: i === 1 });
    }
  }
  return cut;
}
