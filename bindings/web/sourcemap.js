/**
 * Compiled maps in a page: lookups by proved code in WebAssembly. All maps lie in the memory of one instance of
 * the module, which this file divides: the module itself allocates nothing. Types are in sourcemap.d.ts.
 */

export const NONE = 0xffffffff;

const POSITION_WORDS = 2;
const ANSWER_WORDS = 4;
const TOKEN_WORDS = 8;
// where the words of a token are, as the module writes them; of the last two only the lowest byte is written
const [LINE, COLUMN, ORIGINAL_LINE, ORIGINAL_COLUMN, SOURCE, NAME, IS_RANGE, FOUND] = [0, 1, 2, 3, 4, 5, 6, 7];

const OK = 0;
const ABSENT = 32;
const ERRORS = {
  2: ['UTF8', 'a text of the compiled map is not UTF-8'],
  5: ['VLQ_LEFTOVER', 'the segment ends within a number'],
  6: ['VLQ_NO_VALUES', 'the segment has no number'],
  7: ['VLQ_OVERFLOW', 'a number of the segment is too large'],
  19: ['INVALID_BASE64', 'the segment has a byte that is no digit'],
  35: ['COMPILED_TRUNCATED', 'the compiled map is truncated'],
  36: ['COMPILED_MAGIC', 'not a compiled map'],
  37: ['COMPILED_VERSION', 'unknown version of a compiled map'],
  38: ['COMPILED_EXTENT', 'a table of the compiled map has a wrong extent'],
  39: ['COMPILED_TEXT', 'a text passes the end of the compiled map'],
  40: ['COMPILED_ORDER', 'the compiled map is out of order'],
};

const NO_MEMORY64 =
  'the module needs 64-bit memories of WebAssembly, which are missing here: use Chrome or Edge 133, Firefox 134, ' +
  'Node 24 or later; Node 20 and 22 have them with --experimental-wasm-memory64; Safari has none yet';

export class SourceMapError extends Error {
  constructor(message, code, options) {
    super(message, options);
    this.name = 'SourceMapError';
    this.code = code;
  }
}

/** Whether a call that returned this code has a value. Throws an error. */
function hasValue(code) {
  if (code === OK || code === ABSENT) return code === OK;
  const [name, message] = ERRORS[code];
  throw new SourceMapError(message, name);
}

const utf8 = new TextDecoder('utf-8', { ignoreBOM: true });

/** A module with a 64-bit memory and nothing else. */
const MEMORY64 = new Uint8Array([0, 0x61, 0x73, 0x6d, 1, 0, 0, 0, 5, 3, 1, 4, 0]);

/*
 * The memory of the module. From the bottom: the data and the stack of the module, the scratch of this file,
 * and the maps, with free parts between them.
 */

const PAGE = 65536;
const GRAIN = 16;
/** What the module reads of a compiled map to check it. */
const HEADER_LENGTH = 64;
/** What a part that grows has to spare, so that streams that come at once do not move one another at each piece. */
const SPARE = 2 ** 18;
/** How many positions are looked up in one call: they and their tokens stay in the nearest cache. */
const BATCH = 512;
/** The words of the scratch: a slot for one result and one for another text, then positions, then tokens. */
const SLOT_WORDS = 8;
const POSITIONS_AT = SLOT_WORDS;
const TOKENS_AT = POSITIONS_AT + POSITION_WORDS * BATCH;
const SCRATCH_WORDS = TOKENS_AT + TOKEN_WORDS * BATCH;

/** The bytes of a view of any kind. */
function bytesIn(view) {
  return new Uint8Array(view.buffer, view.byteOffset, view.byteLength);
}

function rounded(size, grain) {
  return Math.ceil(size / grain) * grain;
}

class Heap {
  #module;
  #instance;
  #grow;
  #base;
  /** Free parts, `[start, end]`, in order; no two touch. */
  #free;

  constructor(module) {
    this.#module = module;
    this.#start();
    const scratch = rounded(Number(this.calls.__heap_base.value), GRAIN);
    this.#base = scratch + rounded(4 * SCRATCH_WORDS, GRAIN);
    this.#free = [];
    if (this.#end < this.#base) this.#growTo(this.#base);
    if (this.#end > this.#base) this.#free.push([this.#base, this.#end]);
    this.scratch = scratch;
    this.slot = BigInt(scratch);
    this.positions = BigInt(scratch + 4 * POSITIONS_AT);
    this.tokens = BigInt(scratch + 4 * TOKENS_AT);
    this.#view();
  }

  #start() {
    this.#instance = new WebAssembly.Instance(this.#module, {});
    this.calls = this.#instance.exports;
    const { memory } = this.calls;
    try {
      memory.grow(0n);
      this.#grow = (pages) => memory.grow(BigInt(pages));
    } catch {
      // Node before 24
      this.#grow = (pages) => memory.grow(pages);
    }
  }

  get #end() {
    return this.calls.memory.buffer.byteLength;
  }

  /** How many bytes of memory there are. */
  get size() {
    return this.#end;
  }

  #view() {
    const { buffer } = this.calls.memory;
    this.bytes = new Uint8Array(buffer);
    this.words = new Uint32Array(buffer, this.scratch, SCRATCH_WORDS);
    this.slots = new BigUint64Array(buffer, this.scratch, SLOT_WORDS / 2);
  }

  /** The text in the slot. */
  text() {
    const start = Number(this.slots[0]);
    return utf8.decode(this.bytes.subarray(start, start + Number(this.slots[1])));
  }

  /** The numbers of a segment. Its bytes are copied behind room for as many numbers. */
  numbersOf(bytes) {
    const { length } = bytes;
    const part = this.take(9 * length);
    this.bytes.set(bytes, part.at + 8 * length);
    try {
      const [at, room] = [BigInt(part.at), BigInt(length)];
      hasValue(this.calls.sm_parse_segment(at + 8n * room, room, at, room, this.slot));
      return new BigInt64Array(this.calls.memory.buffer, part.at, Number(this.slots[0])).slice();
    } catch (cause) {
      throw cause instanceof SourceMapError ? cause : this.failed('sm_parse_segment', cause);
    } finally {
      this.give(part);
    }
  }

  #growTo(end) {
    try {
      this.#grow(Math.ceil((end - this.#end) / PAGE));
    } catch (cause) {
      throw new SourceMapError('the memory for the compiled map is refused', 'OUT_OF_MEMORY', { cause });
    }
  }

  /** Takes the smallest free part that is large enough, or grows the memory. */
  take(length) {
    const size = Math.max(rounded(length, GRAIN), GRAIN);
    let best = -1;
    let least = Infinity;
    this.#free.forEach(([start, end], index) => {
      if (end - start >= size && end - start < least) [best, least] = [index, end - start];
    });
    if (best === -1) best = this.#extend(size);
    const part = this.#free[best];
    const at = part[0];
    part[0] += size;
    if (part[0] === part[1]) this.#free.splice(best, 1);
    return { at, size };
  }

  /** Grows the memory until its last part has this size. Returns the index of this part. */
  #extend(size) {
    const last = this.#free.at(-1);
    const end = this.#end;
    const touches = last !== undefined && last[1] === end;
    this.#growTo((touches ? last[0] : end) + size);
    if (touches) last[1] = this.#end;
    else this.#free.push([end, this.#end]);
    this.#view();
    return this.#free.length - 1;
  }

  give({ at, size }) {
    const free = this.#free;
    let next = free.findIndex(([start]) => start > at);
    if (next === -1) next = free.length;
    free.splice(next, 0, [at, at + size]);
    if (next + 1 < free.length && free[next][1] === free[next + 1][0]) {
      free[next][1] = free[next + 1][1];
      free.splice(next + 1, 1);
    }
    if (next > 0 && free[next - 1][1] === free[next][0]) {
      free[next - 1][1] = free[next][1];
      free.splice(next, 1);
    }
  }

  /** Makes a part larger, which may move its first bytes. If there is no memory, the part is given back. */
  #widen(part, used, length) {
    this.give(part);
    const wider = this.take(length);
    if (wider.at !== part.at) this.bytes.copyWithin(wider.at, part.at, part.at + used);
    return wider;
  }

  /** Gives back what a part does not need for this many bytes. */
  #trim({ at, size }, length) {
    const kept = Math.max(rounded(length, GRAIN), GRAIN);
    if (kept < size) this.give({ at: at + kept, size: size - kept });
    return { at, size: kept };
  }

  /** Takes a part for bytes of which the header alone is copied. */
  reserve(bytes) {
    const part = this.take(bytes.length);
    this.bytes.set(bytes.subarray(0, HEADER_LENGTH), part.at);
    return { part, length: bytes.length };
  }

  /** Takes a part for bytes that come in pieces. Returns it, and how many bytes there were. */
  async receive({ expected, pieces }) {
    let part = this.take(expected);
    let length = 0;
    try {
      for await (const piece of pieces) {
        if (!ArrayBuffer.isView(piece)) throw new TypeError('a piece of the stream is no Uint8Array');
        const end = length + piece.byteLength;
        if (end > part.size) {
          const narrow = part;
          part = null;
          part = this.#widen(narrow, length, end + SPARE);
        }
        this.bytes.set(bytesIn(piece), part.at + length);
        length = end;
      }
    } catch (error) {
      if (part !== null) this.give(part);
      throw error;
    }
    return { part: this.#trim(part, length), length };
  }

  /**
   * Another instance takes over the maps: after a trap, which would be a defect of the module, its stack is lost.
   * Returns what is to be thrown.
   */
  failed(name, cause) {
    this.renew();
    return new SourceMapError(`the module failed in ${name}`, 'TRAP', { cause });
  }

  renew() {
    const before = this.bytes;
    this.#start();
    if (this.#end < before.length) this.#growTo(before.length);
    this.#view();
    this.bytes.set(before.subarray(this.scratch), this.scratch);
  }
}

/*
 * The module, once
 */

let source = null;
let heap = null;

const CALLS = [
  'check', 'verify', 'count', 'debug_id', 'lookup', 'lookup_many', 'scope', 'source', 'name', 'contents', 'file',
].map((name) => `sm_compiled_${name}`).concat('sm_next_line', 'sm_slice');

async function compiledModule() {
  if (source instanceof WebAssembly.Module) return source;
  const from = source ?? new URL('./sourcemap.wasm', import.meta.url);
  try {
    return await WebAssembly.compile(await bytesOf(from));
  } catch (cause) {
    throw new SourceMapError(`there is no module at ${from}: ${cause.message}`, 'NO_MODULE', { cause });
  }
}

/** All bytes of an input. */
async function bytesOf(from) {
  const { pieces } = await inputOf(from);
  const all = [];
  for await (const piece of pieces) all.push(piece);
  return new Blob(all).arrayBuffer();
}

async function startHeap() {
  const module = await compiledModule();
  const names = new Set(WebAssembly.Module.exports(module).map(({ name }) => name));
  const missing = ['memory', '__heap_base', ...CALLS].find((name) => !names.has(name));
  if (missing !== undefined) throw new SourceMapError(`the module has no ${missing}`, 'NO_MODULE');
  return new Heap(module);
}

/** Asks only until the module is loaded: to ask takes longer than to open a small map. */
function checkSupport() {
  if (heap === null && !CompiledMap.isSupported()) throw new SourceMapError(NO_MEMORY64, 'NO_MEMORY64');
}

function theHeap() {
  if (heap === null) {
    heap = startHeap();
    heap.catch(() => { heap = null; });
  }
  return heap;
}

/*
 * Inputs: how many bytes are expected, and the pieces that they come in
 */

/** Whether a value is of a class that need not exist here. */
function isA(value, name) {
  return typeof globalThis[name] === 'function' && value instanceof globalThis[name];
}

/** The path of a file for Node, which has no `fetch` of files; null elsewhere. */
function pathOf(from) {
  const fs = globalThis.process?.getBuiltinModule?.('node:fs/promises');
  if (fs === undefined) return null;
  if (from instanceof URL) return from.protocol === 'file:' ? [fs, from] : null;
  if (typeof from !== 'string' || /^(https?|data|blob):/.test(from)) return null;
  return [fs, from.startsWith('file:') ? new URL(from) : from];
}

function whole(bytes) {
  return { expected: bytes.byteLength, pieces: [bytes] };
}

/** The pieces of a stream. Its own iterator takes longer to see the end. */
async function* piecesOf(stream) {
  const reader = stream.getReader();
  try {
    for (let next = await reader.read(); !next.done; next = await reader.read()) yield next.value;
  } finally {
    // of a stream that is not read to its end, nobody wants the rest
    reader.cancel().catch(() => {});
  }
}

async function fetched(from) {
  const file = pathOf(from);
  if (file !== null) return whole(await file[0].readFile(file[1]));
  const response = isA(from, 'Response') ? from : await fetch(from);
  if (!response.ok) throw new Error(`status ${response.status} ${response.statusText}`.trim());
  // a body that was compressed is longer
  const pieces = response.body === null ? [] : piecesOf(response.body);
  return { expected: Number(response.headers.get('content-length')) || 0, pieces };
}

function isNamed(from) {
  return typeof from === 'string' || from instanceof URL || isA(from, 'Request') || isA(from, 'Response');
}

function unread(from, cause) {
  const name = isA(from, 'Request') || isA(from, 'Response') ? from.url : from;
  return new SourceMapError(`cannot read ${name}: ${cause.message}`, 'IO', { cause });
}

async function* reading(from, pieces) {
  try {
    yield* pieces;
  } catch (cause) {
    throw unread(from, cause);
  }
}

async function inputOf(from) {
  if (from instanceof ArrayBuffer || isA(from, 'SharedArrayBuffer')) return whole(new Uint8Array(from));
  if (ArrayBuffer.isView(from)) return whole(from);
  if (isA(from, 'Blob')) return { expected: from.size, pieces: piecesOf(from.stream()) };
  if (isA(from, 'ReadableStream')) return { expected: 0, pieces: piecesOf(from) };
  if (!isNamed(from)) throw new TypeError('a compiled map is a URL, a Response, a stream, a Blob, or bytes');
  try {
    const { expected, pieces } = await fetched(from);
    return { expected, pieces: reading(from, pieces) };
  } catch (cause) {
    throw unread(from, cause);
  }
}

/** The bytes of a buffer that can be taken over. */
function transferable(from) {
  const bytes = ArrayBuffer.isView(from) ? bytesIn(from) : from;
  if (bytes instanceof ArrayBuffer) return new Uint8Array(bytes);
  if (bytes?.buffer instanceof ArrayBuffer) return bytes;
  throw new TypeError('with `transfer`, a compiled map is an ArrayBuffer or a view of one');
}

/** Takes a buffer over: its owner is left with an empty one, and cannot change these bytes. */
function takenOver({ buffer, byteOffset, length }) {
  return new Uint8Array(structuredClone(buffer, { transfer: [buffer] }), byteOffset, length);
}

/*
 * Arguments
 */

function checkNumber(what, value) {
  if (typeof value !== 'number' || Number.isNaN(value)) throw new TypeError(`${what} must be a number`);
}

function checkNeedle(needle) {
  if (typeof needle !== 'object' || needle === null) throw new TypeError('the position must be an object');
  checkNumber('`line`', needle.line);
  checkNumber('`column`', needle.column);
  if (needle.line < 1) throw new SourceMapError('`line` must be greater than 0 (lines start at line 1)', 'BAD_POSITION');
  if (needle.column < 0) {
    throw new SourceMapError('`column` must be greater than or equal to 0 (columns start at column 0)', 'BAD_POSITION');
  }
}

function checkArray(what, array) {
  if (!(array instanceof Uint32Array)) throw new TypeError(`${what} must be a Uint32Array`);
}

function checkRoom(array, wanted) {
  checkArray('the array for answers', array);
  if (array.length < wanted) throw new RangeError(`the array for answers has ${array.length} items, of ${wanted}`);
}

function checkId(id, what = 'an id') {
  if (!Number.isInteger(id) || id < 0 || id > NONE) throw new TypeError(`${what} must be an integer from 0 to 4294967295`);
}

/** The line from 0 of a line from 1, or -1 if no token is on such a line. */
function rowOf(line) {
  const row = line - 1;
  return row >>> 0 === row ? row : -1;
}

function columnOf(column) {
  return Math.min(Math.floor(column), NONE);
}

export class CompiledMap {
  #heap;
  #part;
  // the bytes of the map, as the module takes them
  #at;
  #length;
  // the bytes as they were taken over, until a call reads them
  #waiting = null;
  #sources = new Map();
  #names = new Map();
  #lists = {};

  static isSupported() {
    return typeof WebAssembly === 'object' && WebAssembly.validate(MEMORY64);
  }

  static useModule(module) {
    if (heap !== null) throw new SourceMapError('the module is loaded already', 'NO_MODULE');
    source = module;
  }

  static async load(from, { transfer = false } = {}) {
    checkSupport();
    if (transfer) return CompiledMap.#takeOver(transferable(from), await theHeap());
    const [opened, input] = await Promise.all([theHeap(), inputOf(from)]);
    return new CompiledMap(opened, await opened.receive(input));
  }

  static #takeOver(bytes, opened) {
    const map = new CompiledMap(opened, opened.reserve(bytes));
    try {
      map.#waiting = takenOver(bytes);
    } catch (error) {
      map.close();
      throw error;
    }
    return map;
  }

  constructor(opened, received) {
    if (!(opened instanceof Heap)) throw new TypeError('use CompiledMap.load');
    this.#heap = opened;
    this.#part = received.part;
    this.#at = BigInt(received.part.at);
    this.#length = BigInt(received.length);
    try {
      this.#check('sm_compiled_check');
    } catch (error) {
      this.close();
      throw error;
    }
  }

  #opened() {
    if (this.#part === null) throw new SourceMapError('the map is closed', 'CLOSED');
    if (this.#waiting !== null) {
      this.#heap.bytes.set(this.#waiting, this.#part.at);
      this.#waiting = null;
    }
    return this.#heap;
  }

  /** Calls the module for this map, and returns the code. */
  #call(name, ...args) {
    const opened = this.#opened();
    try {
      return opened.calls[name](this.#at, this.#length, ...args);
    } catch (cause) {
      throw opened.failed(name, cause);
    }
  }

  /** The same; returns whether there is a value, and throws any other code. */
  #check(name, ...args) {
    return hasValue(this.#call(name, ...args));
  }

  #text(name, ...args) {
    return this.#check(name, ...args, this.#heap.slot) ? this.#heap.text() : null;
  }

  get file() {
    return this.#text('sm_compiled_file');
  }

  get debugId() {
    if (!this.#check('sm_compiled_debug_id', this.#heap.slot)) return null;
    const { bytes, scratch } = this.#heap;
    const hex = Array.from(bytes.subarray(scratch, scratch + 16), (byte) => byte.toString(16).padStart(2, '0')).join('');
    return hex.replace(/^(.{8})(.{4})(.{4})(.{4})/, '$1-$2-$3-$4-');
  }

  #count(which) {
    this.#check('sm_compiled_count', this.#heap.slot);
    return this.#heap.words[which];
  }

  get tokenCount() {
    return this.#count(0);
  }

  get sourceCount() {
    return this.#count(1);
  }

  get nameCount() {
    return this.#count(2);
  }

  get sources() {
    this.#lists.sources ??= Object.freeze(Array.from({ length: this.sourceCount }, (_, id) => this.source(id)));
    return this.#lists.sources;
  }

  get names() {
    this.#lists.names ??= Object.freeze(Array.from({ length: this.nameCount }, (_, id) => this.name(id)));
    return this.#lists.names;
  }

  source(id) {
    checkId(id);
    return this.#text('sm_compiled_source', id);
  }

  name(id) {
    checkId(id);
    return this.#text('sm_compiled_name', id);
  }

  sourceContent(id) {
    checkId(id);
    return this.#text('sm_compiled_contents', id);
  }

  /** Puts a line of the contents of a source into the slot. Returns whether there is such a line. */
  #findLine(id, line) {
    checkId(id);
    checkNumber('`line`', line);
    if (line < 1 || !this.#check('sm_compiled_contents', id, this.#heap.slot)) return false;
    const { calls, slot, slots } = this.#heap;
    for (let left = Math.floor(line); left >= 1; left -= 1) {
      const isLast = calls.sm_next_line(slots[0], slots[1], slot, slot + 16n) === ABSENT;
      if (left === 1) return true;
      if (isLast) return false;
      [slots[0], slots[1]] = [slots[2], slots[3]];
    }
    return false;
  }

  sourceLine(id, line) {
    return this.#findLine(id, line) ? this.#heap.text() : null;
  }

  sourceSlice(id, line, column, span) {
    checkId(column, '`column`');
    checkId(span, '`span`');
    if (!this.#findLine(id, line)) return null;
    const { calls, slot, slots } = this.#heap;
    return hasValue(calls.sm_slice(slots[0], slots[1], column, span, slot)) ? this.#heap.text() : null;
  }

  sourceContentFor(source) {
    if (typeof source !== 'string') throw new TypeError('`source` must be a string');
    const id = this.sources.indexOf(source);
    return id === -1 ? null : this.sourceContent(id);
  }

  /** A text of an answer, which is kept. */
  #kept(texts, call, id) {
    if (id === NONE) return null;
    let text = texts.get(id);
    if (text === undefined) {
      text = this.#text(call, id);
      texts.set(id, text);
    }
    return text;
  }

  /** The words of the closest token, if it is on the line of the position; else null. */
  #closest(row, column) {
    const { calls, slot, words } = this.#opened();
    if (row === -1) return null;
    let code;
    try {
      code = calls.sm_compiled_lookup(this.#at, this.#length, row, column, slot);
    } catch (cause) {
      throw this.#heap.failed('sm_compiled_lookup', cause);
    }
    return hasValue(code) && words[LINE] === row ? words : null;
  }

  originalPositionFor(needle) {
    checkNeedle(needle);
    const words = this.#closest(rowOf(needle.line), columnOf(needle.column));
    if (words === null || words[SOURCE] === NONE) return { source: null, line: null, column: null, name: null };
    // a text that is read overwrites the words
    const line = words[ORIGINAL_LINE] + 1;
    const column = words[ORIGINAL_COLUMN];
    const name = words[NAME];
    return {
      source: this.#kept(this.#sources, 'sm_compiled_source', words[SOURCE]),
      line,
      column,
      name: this.#kept(this.#names, 'sm_compiled_name', name),
    };
  }

  scopeFor(needle) {
    checkNeedle(needle);
    const [row, column] = [rowOf(needle.line), columnOf(needle.column)];
    return this.#closest(row, column) === null ? null : this.#text('sm_compiled_scope', row, column);
  }

  /** Looks up `count` positions that are in the scratch. The tokens are then in the scratch. */
  #lookUp(count) {
    const { positions, tokens } = this.#heap;
    this.#call('sm_compiled_lookup_many', positions, BigInt(count), tokens, BigInt(count));
  }

  lookupMany(positions, answers = new Uint32Array((positions.length >>> 1) * ANSWER_WORDS)) {
    checkArray('the positions', positions);
    const count = positions.length >>> 1;
    checkRoom(answers, count * ANSWER_WORDS);
    for (let i = 0; i < count; i += 1) {
      if (positions[2 * i] === 0) throw new SourceMapError('`line` must be greater than 0 (lines start at line 1)', 'BAD_POSITION');
    }
    for (let first = 0; first < count; first += BATCH) {
      const taken = Math.min(BATCH, count - first);
      const { words } = this.#heap;
      for (let i = 0; i < 2 * taken; i += 2) {
        words[POSITIONS_AT + i] = positions[2 * first + i] - 1;
        words[POSITIONS_AT + i + 1] = positions[2 * first + i + 1];
      }
      this.#lookUp(taken);
      writeAnswers(words, taken, answers, ANSWER_WORDS * first);
    }
    return answers;
  }

  closestTokens(positions, tokens = new Uint32Array((positions.length >>> 1) * TOKEN_WORDS)) {
    checkArray('the positions', positions);
    const count = positions.length >>> 1;
    checkRoom(tokens, count * TOKEN_WORDS);
    for (let first = 0; first < count; first += BATCH) {
      const taken = Math.min(BATCH, count - first);
      const { words } = this.#heap;
      words.set(positions.subarray(2 * first, 2 * (first + taken)), POSITIONS_AT);
      this.#lookUp(taken);
      for (let i = 0; i < taken; i += 1) copyToken(words, TOKENS_AT + TOKEN_WORDS * i, tokens, first + i);
    }
    return tokens;
  }

  /** Puts the token with an index into the slot. Returns whether there is one. */
  #findToken(index) {
    return this.#check('sm_compiled_token', index, this.#heap.slot);
  }

  token(index) {
    checkId(index, 'an index');
    if (!this.#findToken(index)) return null;
    const token = new Uint32Array(TOKEN_WORDS);
    copyToken(this.#heap.words, 0, token, 0);
    return token;
  }

  tokensAt(index, tokens) {
    checkId(index, 'an index');
    checkArray('the array for tokens', tokens);
    const last = Math.min(this.tokenCount - index, Math.floor(tokens.length / TOKEN_WORDS));
    for (let i = 0; i < last; i += 1) {
      this.#findToken(index + i);
      copyToken(this.#heap.words, 0, tokens, i);
    }
    return Math.max(last, 0);
  }

  /** The index of the first token at or after a position. */
  #indexFrom(line, column) {
    let [low, high] = [0, this.tokenCount];
    while (low < high) {
      const middle = Math.floor((low + high) / 2);
      this.#findToken(middle);
      const { words } = this.#heap;
      if (words[LINE] < line || (words[LINE] === line && words[COLUMN] < column)) low = middle + 1;
      else high = middle;
    }
    return low;
  }

  tokensFrom(line, column, tokens) {
    checkNumber('`line`', line);
    checkNumber('`column`', column);
    checkArray('the array for tokens', tokens);
    const room = Math.floor(tokens.length / TOKEN_WORDS);
    const { tokenCount } = this;
    let found = 0;
    for (let index = this.#indexFrom(line, column); index < tokenCount && found < room; index += 1) {
      this.#findToken(index);
      const { words } = this.#heap;
      const last = TOKEN_WORDS * (found - 1);
      if (found > 0 && words[LINE] === tokens[last + LINE] && words[COLUMN] === tokens[last + COLUMN]) continue;
      copyToken(words, 0, tokens, found);
      found += 1;
    }
    return found;
  }

  verify() {
    this.#check('sm_compiled_verify');
  }

  close() {
    if (this.#part === null) return;
    this.#heap.give(this.#part);
    this.#part = null;
    this.#waiting = null;
    this.#lists = {};
    this.#sources.clear();
    this.#names.clear();
  }
}

export async function parseSegment(segment) {
  if (typeof segment !== 'string') throw new TypeError('a segment must be a string');
  checkSupport();
  const opened = await theHeap();
  return opened.numbersOf(new TextEncoder().encode(segment));
}

/** Writes the answers of tokens in the scratch: of each that is on the line of its position. */
function writeAnswers(words, count, answers, first) {
  for (let i = 0, at = TOKENS_AT, to = first; i < count; i += 1, at += TOKEN_WORDS, to += ANSWER_WORDS) {
    const source = words[at + SOURCE];
    if ((words[at + FOUND] & 0xff) !== 0 && words[at + LINE] === words[POSITIONS_AT + 2 * i] && source !== NONE) {
      answers[to] = source;
      answers[to + 1] = words[at + ORIGINAL_LINE] + 1;
      answers[to + 2] = words[at + ORIGINAL_COLUMN];
      answers[to + 3] = words[at + NAME];
    } else {
      answers[to] = NONE;
      answers[to + 1] = 0;
      answers[to + 2] = 0;
      answers[to + 3] = NONE;
    }
  }
}

/** Copies a token of the scratch, whose words begin at `from`. */
function copyToken(words, from, tokens, to) {
  const at = TOKEN_WORDS * to;
  for (let word = 0; word < IS_RANGE; word += 1) tokens[at + word] = words[from + word];
  tokens[at + IS_RANGE] = words[from + IS_RANGE] & 0xff;
  tokens[at + FOUND] = words[from + FOUND] & 0xff;
}
