'use strict';

const { native, words, look } = require('./native.js');
const { NONE } = require('./tokens.js');

/** The last column. */
const LAST = 0xffffffff;

/** What each of `words` is: the first three are read, the others written. */
const MAP = 0;
const LINE = 1;
const COLUMN = 2;
const SOURCE = 3;
const ORIGINAL_LINE = 4;
const ORIGINAL_COLUMN = 5;
const NAME = 6;
const START = 7;
const UNTIL = 8;

/** After so many lookups from one token to the next, the tokens are searched here. */
const STEPS = 8;

/**
 * Looks up positions of a map in the library, and keeps the last answer for as far as the
 * library says that it holds: positions often come in order. Only where they go from
 * token to token is a search in JavaScript quicker than a call for each (bench/lookup.js).
 */
class Lookup {
  /** The answer to the last position. Without a source, the other fields say nothing. */
  source = NONE;
  originalLine = 0;
  originalColumn = 0;
  name = NONE;
  // the answer holds on this line, from the one column to before the other
  line = -1;
  from = 0;
  until = 0;
  // how many times in turn the next position had the next token
  steps = 0;
  // the tokens and the last one that was found, once they are searched here
  tokens = null;
  index = -1;

  /** @param mappings with the library's handle, and the tokens */
  constructor(mappings) {
    this.mappings = mappings;
    this.map = native.mapId(mappings.handle);
  }

  /** Looks up a position whose line counts from 1. */
  find(line, column) {
    if (line === this.line && column >= this.from && column < this.until) return;
    if (this.steps >= STEPS && this.step(line - 1, column)) return;
    const row = line - 1;
    if (row >>> 0 !== row) {
      // no token is on such a line
      this.line = -1;
      this.source = NONE;
      return;
    }
    words[MAP] = this.map;
    words[LINE] = row;
    words[COLUMN] = Math.min(column, LAST);
    look();
    const isNext = line === this.line ? words[START] === this.until : line === this.line + 1;
    this.steps = isNext ? this.steps + 1 : 0;
    this.line = line;
    this.from = column;
    this.until = words[UNTIL];
    this.source = words[SOURCE];
    this.originalLine = words[ORIGINAL_LINE] >>> 0;
    this.originalColumn = words[ORIGINAL_COLUMN] >>> 0;
    this.name = words[NAME];
  }

  /** Finds a position at the last token or the next one. Returns false if it is elsewhere. */
  step(row, column) {
    const tokens = (this.tokens ??= this.mappings.tokens);
    const found = tokens.hasRanges ? -1 : tokens.find(row, column);
    const isNear = found !== -1 && (this.index === -1 || found === this.index || found === this.index + 1);
    this.index = isNear ? found : -1;
    if (!isNear) {
      this.steps = 0;
      return false;
    }
    const { originals } = tokens;
    const at = 4 * found;
    this.line = -1;
    this.source = originals[at];
    this.originalLine = originals[at + 1] + 1;
    this.originalColumn = originals[at + 2];
    this.name = originals[at + 3];
    return true;
  }
}

module.exports = { Lookup };
