'use strict';

const { types } = require('node:util');
const { filesOf } = require('./files.js');
const { native } = require('./native.js');
const { isObject, refuse } = require('./arguments.js');
const { NONE } = require('./mappings.js');

const SEVERITIES = ['invalid', 'suspicious'];

/** The numbers SM_PLACE_.. of the library. */
const SEGMENT = 1;
const TOKEN = 2;
const SHIFT = 3;

function bytesOf(map) {
  if (types.isUint8Array(map)) return map;
  if (typeof map === 'string') return Buffer.from(map);
  if (!isObject(map)) refuse('the map', 'an object, JSON text or the bytes of that', map);
  return Buffer.from(JSON.stringify(map));
}

function bytesOfText(generated) {
  if (generated === undefined || generated === null) return null;
  if (types.isUint8Array(generated)) return generated;
  if (typeof generated !== 'string') refuse('`generated`', 'a string or a Uint8Array', generated);
  return Buffer.from(generated);
}

function bytesOfName(name) {
  if (name === undefined || name === null) return Buffer.alloc(0);
  if (typeof name !== 'string') refuse('`name`', 'a string', name);
  return Buffer.from(name);
}

function positionOf(place, line, index, lines, columns) {
  switch (place) {
    case SEGMENT: return { line, index };
    case TOKEN: return { line, column: index };
    case SHIFT: return { lines, columns };
    default: return null;
  }
}

function findingOf([code, severity, place, line, index, lines, columns, sections, key, sentence]) {
  return {
    code: `SM${code}`,
    severity: SEVERITIES[severity],
    sections,
    key,
    position: positionOf(place, line, index, lines, columns),
    sentence,
  };
}

function check(map, { generated, name, sources, most = 20 } = {}) {
  if (!Number.isInteger(most) || most < 0 || most > NONE) refuse('`most`', 'a whole number from 0 to 4294967295', most);
  const bytes = bytesOf(map);
  const texts = [bytes, bytesOfText(generated), bytesOfName(name)];
  const files = filesOf(bytes, sources);
  const [invalid, suspicious, findings] = native.check(...texts, files !== null, files ?? [], most);
  return { valid: invalid === 0, invalid, suspicious, findings: findings.map(findingOf) };
}

module.exports = { check };
