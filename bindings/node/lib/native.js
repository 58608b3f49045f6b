'use strict';

const path = require('node:path');
const { webFunctions } = require('./web.js');

/**
 * Loads the addon. If it is not built, takes the WebAssembly module for compiled maps, where there are 64-bit
 * memories; else says how to build it.
 */
function loadAddon() {
  try {
    return require('../out/sourcemap.node');
  } catch (error) {
    if (error.code !== 'MODULE_NOT_FOUND') throw error;
  }
  const folder = path.dirname(__dirname);
  const notBuilt = `${folder} is not built: at the top of the clone run bindings/c/build and then bindings/node/build`;
  const functions = webFunctions(notBuilt);
  if (functions === null) throw new Error(notBuilt);
  return functions;
}

const native = loadAddon();

// The names of the library's codes. Those of calls that this package does not use
// are never thrown.
const CODES = {
  1: 'IO',
  2: 'UTF8',
  3: 'RANGE',
  4: 'BAD_JSON',
  5: 'VLQ_LEFTOVER',
  6: 'VLQ_NO_VALUES',
  7: 'VLQ_OVERFLOW',
  8: 'BAD_SEGMENT_SIZE',
  9: 'BAD_SOURCE_REFERENCE',
  10: 'BAD_NAME_REFERENCE',
  11: 'INCOMPATIBLE',
  12: 'INVALID_DATA_URL',
  13: 'CANNOT_FLATTEN',
  14: 'INVALID_BUNDLE_MAGIC',
  15: 'INVALID_BUNDLE_INDEX',
  16: 'INVALID_BUNDLE_ENTRY',
  17: 'NOT_A_BUNDLE',
  18: 'INVALID_RANGE_INDEX',
  19: 'INVALID_BASE64',
  20: 'OUT_OF_MEMORY',
  32: 'ABSENT',
  33: 'WRONG_KIND',
  34: 'PAST_LIMIT',
  35: 'COMPILED_TRUNCATED',
  36: 'COMPILED_MAGIC',
  37: 'COMPILED_VERSION',
  38: 'COMPILED_EXTENT',
  39: 'COMPILED_TEXT',
  40: 'COMPILED_ORDER',
};

/** Why a map or a position is refused. */
class SourceMapError extends Error {
  /**
   * @param {string} message
   * @param {number | string} code a number of the library, or a name
   * @param {number} number what the error is about, such as the id of a source
   * @param {ErrorOptions} [options]
   */
  constructor(message, code, number = 0, options = undefined) {
    super(message, options);
    this.name = 'SourceMapError';
    this.code = typeof code === 'number' ? CODES[code] : code;
    this.number = number;
  }
}

/** `look()` answers the position in `words`, and writes the answer there. */
const [words, look] = native.init(SourceMapError);

module.exports = { native, words, look, SourceMapError };
