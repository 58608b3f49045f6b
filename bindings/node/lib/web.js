'use strict';

const { existsSync, readFileSync } = require('node:fs');
const path = require('node:path');

// Compiled maps in WebAssembly, for a package whose addon is not built. The functions have the names
// and the arguments of those of the addon. Each map has a memory of its own, with a copy of its bytes,
// which goes when nobody holds the bytes any longer.

const NONE = 0xffffffff;
const PAGE = 65536;
const ANSWER_WORDS = 4;
const TOKEN_WORDS = 8;
const BATCH = 1024;
const POSITIONS_AT = TOKEN_WORDS;
const TOKENS_AT = POSITIONS_AT + 2 * BATCH;
const SCRATCH = 4 * (TOKENS_AT + TOKEN_WORDS * BATCH);
const TEXTS = ['source', 'name', 'contents', 'file'];
const [OK, ABSENT, UTF8, VERSION] = [0, 32, 2, 37];
const MESSAGES = {
  [UTF8]: 'a text of the compiled map is not UTF-8',
  35: 'the compiled map is truncated',
  36: 'not a compiled map',
  [VERSION]: 'unknown version of a compiled map',
  38: 'a table of the compiled map has a wrong extent',
  39: 'a text passes the end of the compiled map',
  40: 'the compiled map is out of order',
};

/** A module with a 64-bit memory and nothing else. */
const MEMORY64 = Uint8Array.of(0, 0x61, 0x73, 0x6d, 1, 0, 0, 0, 5, 3, 1, 4, 0);

/** The module, in this package or beside it in a clone. */
const FILES = ['../out/sourcemap.wasm', '../../web/out/sourcemap.wasm'].map((file) => path.join(__dirname, file));

const utf8 = new TextDecoder('utf-8', { ignoreBOM: true });

/** Grows a memory by some pages: Node before 24 takes a number. */
function grow(memory, pages) {
  try {
    memory.grow(BigInt(pages));
  } catch (error) {
    if (!(error instanceof TypeError)) throw error;
    memory.grow(pages);
  }
}

/** Writes the answer of a token, if it is on the line that was looked up and has a source. */
function writeAnswer(words, at, line, answers, to) {
  const isThere = (words[at + 7] & 0xff) !== 0 && words[at] === line && words[at + 4] !== NONE;
  answers[to] = isThere ? words[at + 4] : NONE;
  answers[to + 1] = isThere ? words[at + 2] + 1 : 0;
  answers[to + 2] = isThere ? words[at + 3] : 0;
  answers[to + 3] = isThere ? words[at + 5] : NONE;
}

class HeldMap {
  constructor(module, bytes, SourceMapError) {
    this.SourceMapError = SourceMapError;
    this.calls = new WebAssembly.Instance(module).exports;
    const { memory } = this.calls;
    const scratch = Math.ceil(Number(this.calls.__heap_base.value) / 16) * 16;
    const at = scratch + SCRATCH;
    const missing = at + bytes.length - memory.buffer.byteLength;
    if (missing > 0) grow(memory, Math.ceil(missing / PAGE));
    this.bytes = new Uint8Array(memory.buffer);
    this.bytes.set(bytes, at);
    this.words = new Uint32Array(memory.buffer, scratch, SCRATCH / 4);
    this.longs = new BigUint64Array(memory.buffer, scratch, 2);
    [this.at, this.length, this.slot] = [BigInt(at), BigInt(bytes.length), BigInt(scratch)];
    this.positions = BigInt(scratch + 4 * POSITIONS_AT);
    this.tokens = BigInt(scratch + 4 * TOKENS_AT);
    this.version = bytes.length < 8 ? 0 : new DataView(memory.buffer).getUint32(at + 4, true);
  }

  /** Whether a call has written a value. Throws its error. */
  has(name, ...words) {
    const code = this.calls[`sm_compiled_${name}`](this.at, this.length, ...words);
    if (code === OK || code === ABSENT) return code === OK;
    throw new this.SourceMapError(MESSAGES[code], code, code === VERSION ? this.version : 0);
  }

  text(name, ...words) {
    if (!this.has(name, ...words, this.slot)) return null;
    const start = Number(this.longs[0]);
    return utf8.decode(this.bytes.subarray(start, start + Number(this.longs[1])));
  }

  isOnLine(line, column) {
    return this.has('lookup', line, column, this.slot) && this.words[0] === line;
  }

  lookupMany(positions, answers) {
    const { words } = this;
    for (let first = 0; first < positions.length >>> 1; first += BATCH) {
      const count = Math.min(BATCH, (positions.length >>> 1) - first);
      for (let i = 0; i < 2 * count; i += 2) {
        words[POSITIONS_AT + i] = positions[2 * first + i] - 1;
        words[POSITIONS_AT + i + 1] = positions[2 * first + i + 1];
      }
      this.calls.sm_compiled_lookup_many(this.at, this.length, this.positions, BigInt(count), this.tokens, BigInt(count));
      for (let i = 0; i < count; i += 1) {
        writeAnswer(words, TOKENS_AT + TOKEN_WORDS * i, words[POSITIONS_AT + 2 * i], answers, ANSWER_WORDS * (first + i));
      }
    }
  }
}

/** The functions of the addon for compiled maps. Others throw `notBuilt`. */
function functionsOf(module, notBuilt) {
  const maps = new WeakMap();
  let SourceMapError = Error;
  const missing = () => {
    throw new Error(notBuilt);
  };
  const functions = {
    init(error) {
      SourceMapError = error;
      // look() and its words: only maps of the addon are looked up by them
      return [new Int32Array(0), missing];
    },
    compiledCheck(bytes) {
      const map = new HeldMap(module, bytes, SourceMapError);
      map.has('check');
      maps.set(bytes, map);
    },
    compiledVerify(bytes) {
      maps.get(bytes).has('verify');
    },
    compiledCounts(bytes, counts) {
      const map = maps.get(bytes);
      map.has('count', map.slot);
      counts.set(map.words.subarray(0, 3));
    },
    compiledText(bytes, call, id) {
      return TEXTS[call] === 'file' ? maps.get(bytes).text('file') : maps.get(bytes).text(TEXTS[call], id);
    },
    compiledDebugId(bytes) {
      const map = maps.get(bytes);
      return map.has('debug_id', map.slot) ? Buffer.from(map.bytes.slice(Number(map.slot), Number(map.slot) + 16)) : null;
    },
    compiledLookup(bytes, line, column, answer) {
      const map = maps.get(bytes);
      if (map.has('lookup', line, column, map.slot)) writeAnswer(map.words, 0, line, answer, 0);
      else answer.set([NONE, 0, 0, NONE]);
    },
    compiledLookupMany(bytes, positions, answers) {
      maps.get(bytes).lookupMany(positions, answers);
    },
    compiledScope(bytes, line, column) {
      const map = maps.get(bytes);
      return map.isOnLine(line, column) ? map.text('scope', line, column) : null;
    },
  };
  return new Proxy(functions, {
    get(target, name) {
      return target[name] ?? missing;
    },
  });
}

/** Functions in place of the addon; null where 64-bit memories or the module are missing. */
function webFunctions(notBuilt) {
  const file = FILES.find((path) => existsSync(path));
  if (file === undefined || !WebAssembly.validate(MEMORY64)) return null;
  return functionsOf(new WebAssembly.Module(readFileSync(file)), notBuilt);
}

module.exports = { webFunctions };
