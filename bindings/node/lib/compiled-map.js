'use strict';

const { native } = require('./native.js');
const { FlattenMap, parse, mappingsOf } = require('./trace-map.js');
const { checkBytes, checkId, checkLowerNeedle, checkMap, checkPositions } = require('./arguments.js');
const { NONE } = require('./mappings.js');

/** The calls of `native.compiledText`. */
const SOURCE = 0;
const NAME = 1;
const CONTENT = 2;
const FILE = 3;

/** How many numbers the answer to a position has. */
const ANSWER_WORDS = 4;

const answer = new Uint32Array(ANSWER_WORDS);
const counts = new Uint32Array(3);

/** The compiled map of a map of any kind, in a Buffer. */
function compile(map, { contents = true, mapUrl } = {}) {
  checkMap(map, mapUrl);
  const fields = parse(map);
  const traced = FlattenMap(fields, mapUrl);
  const { mappings, rangeMappings } = mappingsOf(traced).encodedFields;
  const { file, names, resolvedSources, sourcesContent } = traced;
  // a list of nulls says no more than no list
  const hasContents = contents && sourcesContent?.some((text) => text != null);
  return native.compile(JSON.stringify({
    version: 3,
    file,
    sources: resolvedSources,
    sourcesContent: hasContents ? sourcesContent : undefined,
    names,
    mappings,
    rangeMappings,
    debugId: fields.debugId ?? fields.debug_id,
    x_facebook_sources: fields.sections ? undefined : fields.x_facebook_sources,
  }), Boolean(contents));
}

/** The line from 0 and the column of a position for the library; null if no token is on such a line. */
function wordsOf({ line, column }) {
  const [row, at] = [line - 1, Math.min(Math.floor(column), NONE)];
  return row >>> 0 === row ? [row, at] : null;
}

class CompiledMap {
  #bytes;
  #sources = new Map();
  #names = new Map();

  constructor(bytes) {
    checkBytes(bytes);
    native.compiledCheck(bytes);
    this.#bytes = bytes;
  }

  get file() {
    return native.compiledText(this.#bytes, FILE, 0);
  }

  get debugId() {
    const bytes = native.compiledDebugId(this.#bytes);
    return bytes && bytes.toString('hex').replace(/^(.{8})(.{4})(.{4})(.{4})/, '$1-$2-$3-$4-');
  }

  #count(which) {
    native.compiledCounts(this.#bytes, counts);
    return counts[which];
  }

  get tokenCount() {
    return this.#count(0);
  }

  get sourceCount() {
    return this.#count(1);
  }

  get nameCount() {
    return this.#count(2);
  }

  source(id) {
    checkId(id);
    return native.compiledText(this.#bytes, SOURCE, id);
  }

  name(id) {
    checkId(id);
    return native.compiledText(this.#bytes, NAME, id);
  }

  sourceContent(id) {
    checkId(id);
    return native.compiledText(this.#bytes, CONTENT, id);
  }

  /** A text of an answer, which is kept. */
  #kept(texts, call, id) {
    if (id === NONE) return null;
    let text = texts.get(id);
    if (text === undefined) {
      text = native.compiledText(this.#bytes, call, id);
      texts.set(id, text);
    }
    return text;
  }

  originalPositionFor(needle) {
    checkLowerNeedle(needle);
    const words = wordsOf(needle);
    if (words !== null) native.compiledLookup(this.#bytes, words[0], words[1], answer);
    if (words === null || answer[0] === NONE) return { source: null, line: null, column: null, name: null };
    const [source, line, column, name] = answer;
    return {
      source: this.#kept(this.#sources, SOURCE, source),
      line,
      column,
      name: this.#kept(this.#names, NAME, name),
    };
  }

  originalPositionsFor(positions) {
    checkPositions(positions);
    const answers = new Uint32Array((positions.length >>> 1) * ANSWER_WORDS);
    native.compiledLookupMany(this.#bytes, positions, answers);
    return answers;
  }

  scopeFor(needle) {
    checkLowerNeedle(needle);
    const words = wordsOf(needle);
    return words && native.compiledScope(this.#bytes, ...words);
  }

  verify() {
    native.compiledVerify(this.#bytes);
  }
}

module.exports = { CompiledMap, compile };
