'use strict';

const { native, SourceMapError } = require('./native.js');
const { Lookup } = require('./lookup.js');
const { Tokens } = require('./tokens.js');

/** How many numbers of 32 bits a token of the library has. */
const TOKEN_WORDS = 7;

/** In a token of the library, the id of a source or name that is missing. */
const NONE = 0xffffffff;

/** How many lines are made at most, as text or as arrays. */
const MOST_LINES = 2 ** 24;

function isSegment(segment) {
  const { length } = segment;
  for (let i = 0; i < length; i++) {
    if (segment[i] >>> 0 !== segment[i]) return false;
  }
  return length === 1 || length === 4 || length === 5;
}

/** Writes a segment of a line as a token, in the library's layout. */
function packSegment(words, at, line, segment) {
  const { length } = segment;
  if (!isSegment(segment)) throw new SourceMapError(`[${segment}] is no segment`, 'BAD_SEGMENT_SIZE', length);
  words[at] = line;
  words[at + 1] = segment[0];
  words[at + 2] = length > 1 ? segment[2] : NONE;
  words[at + 3] = length > 1 ? segment[3] : NONE;
  words[at + 4] = length > 1 ? segment[1] : NONE;
  words[at + 5] = length > 4 ? segment[4] : NONE;
}

/** Opens decoded mappings: passes their tokens to the library, which sorts them. */
function build(mappings, sourceCount, nameCount) {
  let count = 0;
  for (const line of mappings) count += line.length;
  const words = new Uint32Array(count * TOKEN_WORDS);
  let at = 0;
  for (let line = 0; line < mappings.length; line++) {
    for (const segment of mappings[line]) {
      packSegment(words, at, line, segment);
      at += TOKEN_WORDS;
    }
  }
  return native.build(words, sourceCount, nameCount);
}

/** As many items as a list has, without their texts; what is no list stays, for the library to refuse. */
function outline(list, item) {
  return Array.isArray(list) ? new Array(list.length).fill(item) : list;
}

/**
 * Opens a map. The library gets the mappings and, if they are text, `rangeMappings`; of
 * the sources and names it gets only how many there are. All texts stay in JavaScript,
 * so none is parsed as JSON a second time.
 */
function open({ sources, names, mappings, rangeMappings }) {
  if (Array.isArray(mappings)) return build(mappings, sources?.length ?? 0, names?.length ?? 0);
  const outlined = { sources: outline(sources, ''), names: outline(names, 0) };
  return native.open(JSON.stringify({ version: 3, ...outlined, mappings, rangeMappings }));
}

function isSorted(mappings) {
  return mappings.every((line) => line.every((segment, i) => i === 0 || line[i - 1][0] <= segment[0]));
}

/** How many lines mappings have in the form in which they were given. */
function linesOf(given) {
  if (Array.isArray(given)) return given.length;
  let count = 1;
  for (let at = given.indexOf(';'); at !== -1; at = given.indexOf(';', at + 1)) count++;
  return count;
}

/**
 * The mappings of a map: the library's handle, and their decoded and encoded
 * forms. The form that was given is kept, unless it is decoded and out of order.
 * Any other form is made when it is first used.
 */
class Mappings {
  #given;
  #lookup = null;
  #tokens = null;
  #decoded = null;
  #encoded = null;

  /**
   * @param handle what the addon opened
   * @param given the fields of the map; they have no `mappings` if the library flattened it
   */
  constructor(handle, given) {
    const { mappings, rangeMappings } = given;
    this.handle = handle;
    this.#given = mappings ?? [];
    if (typeof mappings === 'string') this.#encoded = { mappings, rangeMappings };
  }

  get lookup() {
    this.#lookup ??= new Lookup(this);
    return this.#lookup;
  }

  get tokens() {
    this.#tokens ??= new Tokens(native.tokens(this.handle));
    return this.#tokens;
  }

  /** How many lines to make: as many as were given, at least up to the last token. */
  #lineCount() {
    const count = Math.max(linesOf(this.#given), this.tokens.lineCount);
    if (count > MOST_LINES) throw new SourceMapError(`${count} lines are too many to be written`, 'PAST_LIMIT');
    return count;
  }

  /** The mappings as lines of segments. */
  get decodedLines() {
    if (this.#decoded === null && Array.isArray(this.#given) && this.#given.length > 0 && isSorted(this.#given)) {
      this.#decoded = this.#given;
    }
    if (this.#decoded === null) {
      const { tokens } = this;
      this.#decoded = Array.from({ length: this.#lineCount() }, () => []);
      for (let i = 0; i < tokens.length; i++) this.#decoded[tokens.lines[i]].push(tokens.segment(i));
    }
    return this.#decoded;
  }

  /** Sets the lines of segments, unchanged and unchecked. */
  set decodedLines(lines) {
    this.#decoded = lines;
  }

  /**
   * `mappings` as text, and `rangeMappings`. If `mappings` was given as text, both are as
   * they were given. Else there is `rangeMappings` only if a token is a range.
   */
  get encodedFields() {
    if (this.#encoded === null) {
      const missing = Math.max(this.#lineCount() - Math.max(this.tokens.lineCount, 1), 0);
      const { mappings, rangeMappings } = JSON.parse(native.write(this.handle));
      this.#encoded = { mappings: mappings + ';'.repeat(missing), rangeMappings };
    }
    return this.#encoded;
  }
}

module.exports = { Mappings, open, NONE };
