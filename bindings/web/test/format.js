/**
 * A reader of compiled maps from docs/COMPILED.md alone, and the answers that the module may give. It finds tokens one
 * by one and knows no search. Numbers of up to 63 bits are BigInts.
 */

export const NONE = 0xffffffff;
const BLOCK = 64;
const CODES = { truncated: 'COMPILED_TRUNCATED', magic: 'COMPILED_MAGIC', version: 'COMPILED_VERSION' };
const utf8 = new TextDecoder('utf-8', { fatal: true, ignoreBOM: true });

export class Format {
  constructor(bytes) {
    this.bytes = bytes;
    [this.tokenCount, this.sources, this.names, this.contents] = [12, 16, 20, 24].map((at) => this.word(at));
    this.scopes = this.word(52);
    this.blocks = Math.floor((this.tokenCount + BLOCK - 1) / BLOCK);
    this.starts = this.word(48);
    this.heads = this.starts + 8 * this.blocks;
    this.table = this.heads + 32 * this.blocks;
    this.file = this.sources + this.names + this.scopes;
    this.texts = this.file + 1 + this.contents;
  }

  byte(at) {
    return at < this.bytes.length ? this.bytes[at] : 0;
  }

  word(at) {
    return this.byte(at) + 2 ** 8 * this.byte(at + 1) + 2 ** 16 * this.byte(at + 2) + 2 ** 24 * this.byte(at + 3);
  }

  long(at) {
    return BigInt(this.word(at)) + (BigInt(this.word(at + 4)) << 32n);
  }

  /** Why the bytes are no compiled map, or null. */
  refusal() {
    const { length } = this.bytes;
    if (length < 64) return CODES.truncated;
    if (this.word(0) !== 0x434d538f) return CODES.magic;
    if (this.word(4) !== 1) return CODES.version;
    if (length < this.word(8)) return CODES.truncated;
    return length > this.word(8) || this.table + 4 * (this.texts + 1) > length ? 'COMPILED_EXTENT' : null;
  }

  /** The numbers of a token, in the order of `closestTokens`, and its scope. */
  token(index) {
    const [block, place] = [Math.floor(index / BLOCK), index % BLOCK];
    const first = this.long(this.starts + 8 * block);
    const head = this.heads + 32 * block;
    let start = this.word(head);
    const values = [];
    for (let field = 0; field < 8; field += 1) {
      const width = this.byte(head + 24 + field) % 64;
      const bit = place * width;
      const shifted = this.long(start + Math.floor(bit / 8)) >> BigInt(bit % 8);
      const number = shifted & ((1n << BigInt(width)) - 1n);
      const base = field === 0 ? first >> 32n : field < 6 ? BigInt(this.word(head + 4 * field)) : 0n;
      values.push(field < 6 ? Number(BigInt.asUintN(32, base + number)) : number);
      start += 8 * width;
    }
    if (place === 0) [values[0], values[1]] = [Number(first >> 32n), Number(first & 0xffffffffn)];
    const [line, column, source, originalLine, originalColumn, name, range, scope] = values;
    return { words: [line, column, originalLine, originalColumn, source, name, range === 0n ? 0 : 1, 1], scope };
  }

  tokens() {
    this.all ??= Array.from({ length: this.tokenCount }, (_, index) => this.token(index));
    return this.all;
  }

  /** A text by its number: a string, null if there is none, or the code of the error. */
  text(number) {
    const [start, end] = [this.word(this.table + 4 * number), this.word(this.table + 4 * number + 4)];
    if (end < start || end > this.bytes.length) return { error: 'COMPILED_TEXT' };
    if (start === end) return null;
    try {
      return utf8.decode(this.bytes.subarray(start, end - 1));
    } catch {
      return { error: 'UTF8' };
    }
  }

  source(id) {
    return id < this.sources ? this.text(id) : null;
  }

  name(id) {
    return id < this.names ? this.text(this.sources + id) : null;
  }

  content(id) {
    return id < this.contents ? this.text(this.file + 1 + id) : null;
  }

  scope(number) {
    return number > 0n && number <= BigInt(this.scopes) ? this.text(this.sources + this.names + Number(number) - 1) : null;
  }

  debugId() {
    return this.word(28) === 0 ? null : Buffer.from(this.bytes.subarray(32, 48)).toString('hex');
  }

  /** The code of the first fault of the whole file, or null. */
  fault() {
    const all = this.tokens();
    if (all.some(({ words }, index) => index > 0 && isBefore(words, all[index - 1].words))) return 'COMPILED_ORDER';
    for (let number = 0; number < this.texts; number += 1) {
      const text = this.text(number);
      if (text?.error !== undefined) return text.error;
    }
    return null;
  }

  /**
   * The tokens that a lookup may find: at the position, and the token ahead is before it; or before it, and the token
   * that follows is after it. In a file in order there is at most one. With them `null`, if the lookup may find none.
   */
  answers(line, column) {
    const all = this.tokens();
    const position = [line, column];
    const found = all.filter(({ words }, index) => {
      if (isSame(words, position)) return index === 0 || isBefore(all[index - 1].words, position);
      return isBefore(words, position) && (index + 1 === all.length || isBefore(position, all[index + 1].words));
    });
    if (all.length === 0 || isBefore(position, all[0].words)) found.push(null);
    return found;
  }
}

function isBefore(a, b) {
  return a[0] < b[0] || (a[0] === b[0] && a[1] < b[1]);
}

function isSame(a, b) {
  return a[0] === b[0] && a[1] === b[1];
}

/** The words of a token that a lookup found at a position: a range token on its line adds columns. */
export function found(words, line, column) {
  const copy = [...words];
  if (words[6] === 1 && words[0] === line) copy[3] = Math.min(words[3] + column - words[1], NONE);
  return copy;
}
