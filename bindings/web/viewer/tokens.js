/** The id of no source, and of no name; also the last column that there may be. */
export const NONE = 0xffffffff;

const WORDS = 8;
const [LINE, COLUMN, ORIGINAL_LINE, ORIGINAL_COLUMN, SOURCE, NAME, IS_RANGE, FOUND] = [0, 1, 2, 3, 4, 5, 6, 7];

const BLOCK_BITS = 11;
const BLOCK = 1 << BLOCK_BITS;
/** How many tokens are read between two yields. */
const READ_AT_ONCE = 256;
/** How many tokens are gone through between two yields. */
const TOKENS_AT_ONCE = 4096;

/*
 * A link is a token: `at`, its generated position; `source`, the id of its source, -1 if it has none; `line` and
 * `column`, its original position; `name`, the id of its name, `NONE` if it has none; `isRange`. One of `Tokens` has its
 * index as `token` too.
 */

function linkOf(words, offset, sourceCount) {
  const source = words[offset + SOURCE];
  return {
    at: { line: words[offset + LINE], column: words[offset + COLUMN] },
    // a damaged map may name sources that it does not have
    source: source < sourceCount ? source : -1,
    line: words[offset + ORIGINAL_LINE],
    column: words[offset + ORIGINAL_COLUMN],
    name: words[offset + NAME],
    isRange: words[offset + IS_RANGE] !== 0,
  };
}

function isSameToken(link, other) {
  return link !== null && other !== null && comparePositions(link.at, other.at) === 0;
}

/** The place of a token among links, -1 if it is none of them. */
export function placeIn(links, link) {
  const isIt = link.token === undefined ? (other) => isSameToken(other, link) : (other) => other.token === link.token;
  return links.findIndex(isIt);
}

/** Whether two links have one original position, or are one token. */
export function isLinked(link, other) {
  if (link === null || other === null) return false;
  if (link.source < 0) return isSameToken(link, other);
  return link.source === other.source && comparePositions(link, other) === 0;
}

function comparePositions(a, b) {
  return a.line - b.line || a.column - b.column;
}

/**
 * The tokens of a compiled map by generated position, of each position the first. They are looked up when they are
 * needed.
 */
export class Lookups {
  #map;
  #word = new Uint32Array(WORDS);

  constructor(map) {
    this.#map = map;
    this.count = map.tokenCount;
    this.sourceCount = map.sourceCount;
  }

  /** The closest token to a position, null if there is none. */
  closest(line, column) {
    const words = this.#map.closestTokens(Uint32Array.of(line, column), this.#word);
    if (words[FOUND] === 0) return null;
    // with a range token its columns were added
    if (words[IS_RANGE] !== 0) this.#map.closestTokens(Uint32Array.of(words[LINE], words[COLUMN]), words);
    return linkOf(words, 0, this.sourceCount);
  }

  /** The closest token if it is on the line of the position; else null. */
  closestOnLine(line, column) {
    const link = this.closest(line, column);
    return link !== null && link.at.line === line ? link : null;
  }

  /** The first token at a position or after it, null if there is none. */
  firstFrom(line, column) {
    const count = line > NONE ? 0 : this.#map.tokensFrom(line, column, this.#word);
    return count === 0 ? null : linkOf(this.#word, 0, this.sourceCount);
  }

  /** The parts of a row, each from a column up to another, with the link of its token, null if it has none. */
  partsOfRow({ line, from, to }) {
    if (from === to) return [];
    const positions = new Uint32Array(2 * (to - from));
    for (let at = 0; at < to - from; at += 1) [positions[2 * at], positions[2 * at + 1]] = [line, from + at];
    const words = this.#map.closestTokens(positions);
    const parts = [{ from, to, link: this.closestOnLine(line, from) }];
    for (let column = from + 1; column < to; column += 1) {
      const at = (column - from) * WORDS;
      if (words[at + FOUND] === 0 || words[at + COLUMN] !== column || words[at + LINE] !== line) continue;
      parts.at(-1).to = column;
      parts.push({ from: column, to, link: linkOf(words, at, this.sourceCount) });
    }
    return parts;
  }

  /** The place of a token among all, if it is known. */
  place() {
    return -1;
  }

  isSame(link, other) {
    return isSameToken(link, other);
  }

  /** The token that a key leads to from another one; null if the key leads nowhere. */
  next(link, key) {
    const moves = {
      ArrowRight: () => this.firstFrom(link.at.line, link.at.column + 1),
      ArrowLeft: () => this.before(link.at.line, link.at.column),
      ArrowDown: () => this.nearest(this.firstFrom(link.at.line + 1, 0), link.at.column),
      ArrowUp: () => this.nearest(this.before(link.at.line, 0), link.at.column),
      Home: () => this.firstFrom(0, 0),
      End: () => this.closest(NONE, NONE),
    };
    return moves[link === null && key !== 'End' ? 'Home' : key]();
  }

  /** The last token before a position. */
  before(line, column) {
    if (column > 0) return this.closest(line, column - 1);
    return line > 0 ? this.closest(line - 1, NONE) : null;
  }

  /** On the line of a token, the last one that begins at a column or before it, else the first. */
  nearest(link, column) {
    if (link === null) return null;
    const { line } = link.at;
    return this.closestOnLine(line, column) ?? this.firstFrom(line, 0);
  }
}

// ---------------------------------------------------------------- All tokens

/** The tokens of a compiled map by index, in order of their generated positions. `read` reads them. */
export class Tokens {
  #map;
  #blocks = [];

  constructor(map) {
    this.#map = map;
    this.sourceCount = map.sourceCount;
    this.count = 0;
    this.isInOrder = true;
  }

  /** Reads all tokens, in steps. Yields which part is read. */
  * read() {
    const last = { line: 0, column: 0 };
    const { tokenCount } = this.#map;
    const words = new Uint32Array(READ_AT_ONCE * WORDS);
    while (this.count < tokenCount) {
      const read = this.#map.tokensAt(this.count, words);
      this.isInOrder = isRising(words, read, last);
      if (!this.isInOrder) return;
      for (let at = 0; at < read * WORDS; at += WORDS) this.#add(words, at);
      yield this.count / tokenCount;
    }
  }

  #add(words, at) {
    const place = this.count & (BLOCK - 1);
    if (place === 0) this.#blocks.push(new Uint32Array(BLOCK * WORDS));
    const block = this.#blocks.at(-1);
    for (let word = 0; word < WORDS; word += 1) block[place * WORDS + word] = words[at + word];
    this.count += 1;
  }

  #field(token, field) {
    return this.#blocks[token >>> BLOCK_BITS][(token & (BLOCK - 1)) * WORDS + field];
  }

  /** The id of the source, -1 if there is none. */
  source(token) {
    const source = this.#field(token, SOURCE);
    return source < this.sourceCount ? source : -1;
  }

  originalLine(token) {
    return this.#field(token, ORIGINAL_LINE);
  }

  originalColumn(token) {
    return this.#field(token, ORIGINAL_COLUMN);
  }

  name(token) {
    return this.#field(token, NAME);
  }

  link(token) {
    const link = linkOf(this.#blocks[token >>> BLOCK_BITS], (token & (BLOCK - 1)) * WORDS, this.sourceCount);
    return { ...link, token };
  }
}

/** Whether tokens are in order, and none is before `last`; that becomes the position of the last of them. */
function isRising(words, count, last) {
  for (let at = 0; at < count * WORDS; at += WORDS) {
    const [line, column] = [words[at + LINE], words[at + COLUMN]];
    if (line < last.line || (line === last.line && column < last.column)) return false;
    [last.line, last.column] = [line, column];
  }
  return true;
}

/**
 * The tokens that have a source, by source, in steps: those of source `s` are `order[firsts[s]]` up to, and without,
 * `order[firsts[s + 1]]`, in order.
 */
export function* tokensBySource(tokens) {
  const { sourceCount } = tokens;
  const firsts = new Uint32Array(sourceCount + 1);
  for (let token = 0; token < tokens.count; token += 1) {
    firsts[tokens.source(token) + 1] += 1;
    if (token % TOKENS_AT_ONCE === 0) yield;
  }
  // those without a source were counted ahead of the first source
  firsts[0] = 0;
  for (let source = 1; source <= sourceCount; source += 1) firsts[source] += firsts[source - 1];
  const order = new Uint32Array(firsts[sourceCount]);
  const next = firsts.slice();
  for (let token = 0; token < tokens.count; token += 1) {
    const source = tokens.source(token);
    if (source >= 0) order[next[source]++] = token;
    if (token % TOKENS_AT_ONCE === 0) yield;
  }
  return { order, firsts };
}
