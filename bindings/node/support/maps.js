'use strict';

const { readdirSync, readFileSync, existsSync } = require('node:fs');
const path = require('node:path');
const { peerFolder } = require('./peer.js');

function* filesBelow(folder) {
  for (const entry of readdirSync(folder, { withFileTypes: true })) {
    const file = path.join(folder, entry.name);
    if (entry.isDirectory()) yield* filesBelow(file);
    else if (entry.name.endsWith('.map')) yield file;
  }
}

/** Folders of a corpus, which may not exist. Its variants are left out: the peer reads an empty segment as a token. */
const CORPUS = process.env.SOURCEMAP_CORPUS
  ? [process.env.SOURCEMAP_CORPUS]
  : ['real', 'gen', 'chain'].map((folder) => path.join('/tmp/corpus/maps', folder));

/** The existing folders with real maps: those of the packages that the peer comes with, and those of the corpus. */
const FOLDERS = [
  peerFolder && path.join(peerFolder, '@jridgewell'),
  peerFolder && path.join(peerFolder, '@ampproject'),
  ...CORPUS,
].filter((folder) => folder && existsSync(folder));

/** At most `limit` real maps, each with its file and its text without a junk header. */
function* realMaps(limit = Infinity) {
  let count = 0;
  for (const folder of FOLDERS) {
    for (const file of filesBelow(folder)) {
      if (count++ === limit) return;
      yield { file, text: readFileSync(file, 'utf8').replace(/^[)\]}'][^\n]*/, '') };
    }
  }
}

module.exports = { realMaps };
