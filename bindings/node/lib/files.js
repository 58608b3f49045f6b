'use strict';

const { readFileSync } = require('node:fs');
const path = require('node:path');
const { types } = require('node:util');
const { native } = require('./native.js');
const { refuse } = require('./arguments.js');

/** The codes of errors that say that there is no file of a name. */
const MISSING = ['ENOENT', 'EISDIR', 'ENOTDIR', 'EINVAL', 'ENAMETOOLONG'];

/** The file of a name below a folder. A name that leads out of the folder has none. */
function fileBelow(folder, name) {
  if (name.startsWith('/') || name.split('/').includes('..') || name.includes('\0')) return null;
  try {
    return readFileSync(path.join(folder, name));
  } catch (error) {
    if (MISSING.includes(error.code)) return null;
    throw error;
  }
}

function bytesOfFile(file) {
  if (file === undefined || file === null) return null;
  if (types.isUint8Array(file)) return file;
  if (typeof file !== 'string') refuse('a file of `sources`', 'a string or a Uint8Array', file);
  return Buffer.from(file);
}

/** Returns what finds the file of a source by its resolved name. */
function finderOf(sources) {
  if (typeof sources === 'string') return (name) => fileBelow(sources, name);
  if (!(sources instanceof Map)) refuse('`sources`', 'the path of a folder or a Map', sources);
  return (name) => bytesOfFile(sources.get(name));
}

/** The bytes of the file of each source of a map, by id, null for none; null if no files are asked for. */
function filesOf(bytes, sources) {
  if (sources === undefined || sources === null) return null;
  return native.sourceNames(bytes).map(finderOf(sources));
}

module.exports = { filesOf };
