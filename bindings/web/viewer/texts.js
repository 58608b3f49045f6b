/** How many lines are gone through between two yields. */
const LINES_AT_ONCE = 4096;

/** A text with the offsets of its lines, which end in LF, CR or both. `linesOf` makes it. */
export class Lines {
  constructor(text, starts, ends, longest) {
    this.text = text;
    this.starts = starts;
    this.ends = ends;
    this.longest = longest;
    this.count = starts.length;
  }

  length(line) {
    return this.ends[line] - this.starts[line];
  }

  slice(line, from, to) {
    return this.text.slice(this.starts[line] + from, this.starts[line] + to);
  }

  /** The line and the column of an offset. */
  position(offset) {
    const line = lastAtOrBefore(this.starts, this.count, offset);
    return { line, column: offset - this.starts[line] };
  }
}

/** Makes the `Lines` of a text, by steps. */
export function* linesOf(text) {
  const starts = [0];
  const ends = [];
  let longest = 0;
  const ending = /\r\n|[\n\r]/g;
  for (let match = ending.exec(text); match !== null; match = ending.exec(text)) {
    longest = Math.max(longest, match.index - starts[ends.length]);
    ends.push(match.index);
    starts.push(ending.lastIndex);
    if (ends.length % LINES_AT_ONCE === 0) yield ending.lastIndex / text.length;
  }
  longest = Math.max(longest, text.length - starts[ends.length]);
  ends.push(text.length);
  return new Lines(text, starts, ends, longest);
}

/** The index of the last of `count` rising numbers that is not above `value`. The first number is not above it. */
function lastAtOrBefore(numbers, count, value) {
  let low = 0;
  let high = count;
  while (high - low > 1) {
    const middle = (low + high) >>> 1;
    if (numbers[middle] <= value) low = middle;
    else high = middle;
  }
  return low;
}

/** How the lines of a text are cut into rows of `width` columns. An empty line has a row too. */
export class WrappedRows {
  constructor(lines, width) {
    this.lines = lines;
    this.width = width;
    this.firsts = new Float64Array(lines.count + 1);
    for (let line = 0; line < lines.count; line += 1) {
      this.firsts[line + 1] = this.firsts[line] + Math.max(1, Math.ceil(lines.length(line) / width));
    }
    this.count = this.firsts[lines.count];
  }

  at(row) {
    const line = lastAtOrBefore(this.firsts, this.lines.count, row);
    const from = (row - this.firsts[line]) * this.width;
    const to = Math.min(from + this.width, this.lines.length(line));
    return { line, from: pastPair(this.lines, line, from), to: pastPair(this.lines, line, to) };
  }

  /** The row of a position. Past the end of a line it is the last row of the line, past the text the last of all. */
  of(line, column) {
    if (line >= this.lines.count) return this.count - 1;
    const row = this.firsts[line] + Math.floor(column / this.width);
    return Math.min(row, this.firsts[line + 1] - 1);
  }
}

/** A row for each line. Of a line longer than `WHOLE` columns only those around the visible ones are drawn. */
export class WholeRows {
  static WHOLE = 240;

  constructor(lines) {
    this.lines = lines;
    this.count = lines.count;
    this.width = Infinity;
  }

  isCut(line) {
    return this.lines.length(line) > WholeRows.WHOLE;
  }

  /** The columns of a row to draw, if those from `first` up to `last` are visible. */
  at(row, first = 0, last = Infinity) {
    const length = this.lines.length(row);
    if (!this.isCut(row)) return { line: row, from: 0, to: length };
    const [from, to] = [first, last].map((column) => Math.min(Math.max(column, 0), length));
    return { line: row, from: pastPair(this.lines, row, from), to: pastPair(this.lines, row, to) };
  }

  of(line) {
    return Math.min(line, this.count - 1);
  }
}

/** The column; within a surrogate pair, the column after the pair. */
function pastPair(lines, line, column) {
  if (column <= 0 || column >= lines.length(line)) return column;
  return lines.text.codePointAt(lines.starts[line] + column - 1) > 0xffff ? column + 1 : column;
}

/** The text with one visible character for each that is invisible, or that controls the direction of text. */
export function visibleText(text) {
  return text
    .replace(/[\u0000-\u0008\u000a-\u001f]/g, (unit) => String.fromCharCode(0x2400 + unit.charCodeAt(0)))
    .replace(/[\u007f-\u009f\u200b\u200e\u200f\u2028-\u202e\u2060\u2066-\u2069\ufeff]/g, '\u00b7');
}

/** A position as editors count, from 1. */
export function positionText(line, column) {
  return `${line + 1}:${column + 1}`;
}

export function countText(number, what) {
  return `${number.toLocaleString('en')} ${what}${number === 1 ? '' : 's'}`;
}
