'use strict';

const { inspect, types } = require('node:util');
const { SourceMapError } = require('./native.js');

// The same texts as in @jridgewell/trace-mapping, since callers may compare them.
const LINE_TOO_LOW = '`line` must be greater than 0 (lines start at line 1)';
const COLUMN_TOO_LOW = '`column` must be greater than or equal to 0 (columns start at column 0)';

const LEAST_UPPER_BOUND = -1;

/** Throws a TypeError that names the argument, what it must be, and what it is. */
function refuse(what, wanted, value) {
  throw new TypeError(`${what} must be ${wanted}, not ${inspect(value, { depth: -1, maxStringLength: 40 })}`);
}

function isObject(value) {
  return typeof value === 'object' && value !== null;
}

function checkNumber(what, value) {
  if (typeof value !== 'number' || Number.isNaN(value)) refuse(what, 'a number', value);
}

/** Checks a position whose line counts from 1. */
function checkPosition(line, column) {
  checkNumber('`line`', line);
  checkNumber('`column`', column);
  if (line < 1) throw new SourceMapError(LINE_TOO_LOW, 'BAD_POSITION');
  if (column < 0) throw new SourceMapError(COLUMN_TOO_LOW, 'BAD_POSITION');
}

/** Checks a position that is looked up, and its bias. With `isWhole` false it needs no column. */
function checkNeedle(needle, isWhole = true) {
  if (!isObject(needle)) refuse('the position', 'an object with `line` and `column`', needle);
  const { line, column, bias } = needle;
  checkPosition(line, !isWhole && column === undefined ? 0 : column);
  if (bias !== undefined && bias !== null) checkNumber('`bias`', bias);
}

/** Checks a source that is looked up. It may be null, as an item of `sources` may be. */
function checkSource(source) {
  if (typeof source !== 'string' && source !== null) refuse('`source`', 'a string', source);
}

function checkPositions(positions) {
  if (!types.isUint32Array(positions)) refuse('the positions', 'a Uint32Array', positions);
  for (let i = 0; i + 1 < positions.length; i += 2) checkPosition(positions[i], 0);
}

/** Checks the position of a lookup in a compiled map, which finds tokens at or before the position alone. */
function checkLowerNeedle(needle) {
  checkNeedle(needle);
  if (needle.bias === LEAST_UPPER_BOUND) refuse('`bias`', 'GREATEST_LOWER_BOUND', needle.bias);
}

function checkBytes(bytes) {
  if (!types.isUint8Array(bytes)) refuse('the compiled map', 'a Uint8Array, such as a Buffer', bytes);
}

function checkId(id) {
  if (id >>> 0 !== id) refuse('the id', 'a whole number from 0 to 4294967295', id);
}

function checkCallback(callback) {
  if (typeof callback !== 'function') refuse('the callback', 'a function', callback);
}

/** Checks the arguments of a constructor: a map in any form, and its URL. */
function checkMap(map, mapUrl) {
  if (typeof map !== 'string' && !isObject(map)) refuse('the map', 'an object, JSON text or the bytes of that', map);
  if (typeof mapUrl !== 'string' && mapUrl !== undefined && mapUrl !== null) refuse('`mapUrl`', 'a string', mapUrl);
}

function checkDecoded(mappings) {
  if (!Array.isArray(mappings)) refuse('`mappings`', 'an array of lines', mappings);
}

module.exports = {
  LEAST_UPPER_BOUND,
  refuse,
  isObject,
  checkNumber,
  checkNeedle,
  checkSource,
  checkPositions,
  checkLowerNeedle,
  checkBytes,
  checkId,
  checkCallback,
  checkMap,
  checkDecoded,
};
