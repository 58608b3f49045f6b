'use strict';

const { existsSync } = require('node:fs');
const Module = require('node:module');
const path = require('node:path');

/** Folders of modules: the one that TRACE_MAPPING_DIR names, and the one of Debian's packages. */
const FOLDERS = [process.env.TRACE_MAPPING_DIR, '/usr/share/nodejs'].filter(Boolean);

const folder = FOLDERS.find((each) => existsSync(path.join(each, '@jridgewell/trace-mapping')));

function load() {
  if (folder === undefined) return null;
  // the package finds its dependencies only by NODE_PATH
  process.env.NODE_PATH = [folder, process.env.NODE_PATH].filter(Boolean).join(path.delimiter);
  Module._initPaths();
  return require('@jridgewell/trace-mapping');
}

/** @jridgewell/trace-mapping, or null if it is not installed. */
const peer = load();

module.exports = {
  peer,
  peerFolder: folder,
  codec: peer && require('@jridgewell/sourcemap-codec'),
  skip: peer ? false : 'no @jridgewell/trace-mapping: install node-ampproject-remapping',
};
