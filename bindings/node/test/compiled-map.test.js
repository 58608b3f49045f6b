'use strict';

const assert = require('node:assert/strict');
const { readdirSync, readFileSync } = require('node:fs');
const path = require('node:path');
const { test } = require('node:test');
const { Worker } = require('node:worker_threads');
const sourcemap = require('..');

const { CompiledMap, compile, LEAST_UPPER_BOUND, NONE } = sourcemap;

const README = {
  version: 3,
  sources: ['coolstuff.js'],
  names: ['x', 'alert'],
  mappings: 'AAAA,GAAIA,GAAI,EACR,IAAIA,GAAK,EAAG,CACVC,MAAM',
};
const NOWHERE = { source: null, line: null, column: null, name: null };

// docs/COMPILED.md: where the header says where the tables begin; each block takes 40 bytes of
// them, then come the offsets of the texts
const TABLES = 48;
const OF_A_BLOCK = 40;

const folders = ['../../test-maps', '../../../examples'].map((folder) => path.join(__dirname, folder));
const files = folders.flatMap((folder) => readdirSync(folder).filter((name) => name.endsWith('.map'))
  .map((name) => path.join(folder, name)));

/** The position of each token, one column before it and one after it, and the end of each line. */
function positionsNear(map) {
  const positions = [1, 0, NONE, NONE];
  sourcemap.eachMapping(map, ({ generatedLine: line, generatedColumn: column }) => {
    positions.push(line, Math.max(column - 1, 0), line, column, line, Math.min(column + 1, NONE), line, NONE);
  });
  return Uint32Array.from(positions);
}

test('answers as the map that was compiled: the maps of this repository', () => {
  assert.ok(files.length > 5);
  for (const file of files) {
    const map = sourcemap.AnyMap(readFileSync(file));
    const compiled = new CompiledMap(compile(map));
    compiled.verify();
    const positions = positionsNear(map);
    assert.deepEqual(compiled.originalPositionsFor(positions), sourcemap.originalPositionsFor(map, positions), file);
    for (let i = 0; i < positions.length; i += 2) {
      const needle = { line: positions[i], column: positions[i + 1] };
      assert.deepEqual(compiled.originalPositionFor(needle), sourcemap.originalPositionFor(map, needle));
    }
    assert.deepEqual([compiled.sourceCount, compiled.nameCount], [map.sources.length, map.names.length]);
    map.resolvedSources.forEach((source, id) => {
      assert.equal(compiled.source(id), source);
      assert.equal(compiled.sourceContent(id), map.sourcesContent?.[id] ?? null);
    });
    map.names.forEach((name, id) => assert.equal(compiled.name(id), name));
  }
});

test('compiles each form of a map', () => {
  const bytes = compile(README);
  assert.ok(Buffer.isBuffer(bytes));
  const forms = [JSON.stringify(README), Buffer.from(JSON.stringify(README)), new sourcemap.TraceMap(README),
    sourcemap.decodedMap(new sourcemap.TraceMap(README))];
  for (const form of forms) assert.deepEqual(compile(form), bytes);
  const index = { version: 3, sections: [{ offset: { line: 0, column: 0 }, map: README }] };
  assert.deepEqual(compile(index), bytes);
});

test('has the parts of a map', () => {
  const compiled = new CompiledMap(compile({
    ...README,
    file: 'out.js',
    sourceRoot: 'src',
    sourcesContent: ['var x;'],
    debugId: '00000000-0000-0000-0000-00000000002a',
  }, { mapUrl: 'https://example.org/dist/out.js.map' }));
  assert.deepEqual([compiled.file, compiled.debugId], ['out.js', '00000000-0000-0000-0000-00000000002a']);
  assert.deepEqual([compiled.tokenCount, compiled.sourceCount, compiled.nameCount], [9, 1, 2]);
  assert.equal(compiled.source(0), 'https://example.org/dist/src/coolstuff.js');
  assert.equal(compiled.sourceContent(0), 'var x;');
  assert.deepEqual([compiled.source(1), compiled.name(2), compiled.sourceContent(NONE)], [null, null, null]);
  const bare = new CompiledMap(compile({ ...README, sourcesContent: ['var x;'] }, { contents: false }));
  assert.deepEqual([bare.file, bare.debugId, bare.sourceContent(0)], [null, null, null]);
});

test('looks only at the line of a position', () => {
  const compiled = new CompiledMap(compile({ ...README, mappings: `;${README.mappings}` }));
  assert.deepEqual(compiled.originalPositionFor({ line: 2, column: 18 }), {
    source: 'coolstuff.js', line: 3, column: 2, name: 'alert',
  });
  assert.deepEqual(compiled.originalPositionFor({ line: 2, column: Infinity }).column, 8);
  for (const line of [1, 3, 2 ** 32, 2 ** 53]) {
    assert.deepEqual(compiled.originalPositionFor({ line, column: 0 }), NOWHERE);
  }
});

test('has the functions of Hermes maps', () => {
  const hermes = {
    version: 3,
    sources: ['a.js'],
    names: [],
    mappings: 'AAAA,KACK',
    x_facebook_sources: [[{ names: ['<global>', 'foo'], mappings: 'AAA,KCC' }]],
  };
  const compiled = new CompiledMap(compile(hermes));
  const scopes = [0, 4, 5, 9].map((column) => compiled.scopeFor({ line: 1, column }));
  assert.deepEqual(scopes, ['<global>', '<global>', 'foo', 'foo']);
  assert.equal(compiled.scopeFor({ line: 2, column: 0 }), null);
  assert.equal(new CompiledMap(compile(README)).scopeFor({ line: 1, column: 0 }), null);
});

test('refuses bytes that are no compiled map', () => {
  const bytes = compile(README);
  const refused = (given, code, number = 0) => assert.throws(() => new CompiledMap(given), { name: 'SourceMapError', code, number });
  for (const end of [0, 63, bytes.length - 1]) refused(bytes.subarray(0, end), 'COMPILED_TRUNCATED');
  refused(Buffer.concat([bytes, Buffer.of(0)]), 'COMPILED_EXTENT');
  refused(Buffer.from(JSON.stringify(README)), 'COMPILED_MAGIC');
  bytes.writeUInt32LE(513, 4);
  refused(bytes, 'COMPILED_VERSION', 513);
  for (const wrong of ['text', null, new Uint16Array(64), README]) {
    assert.throws(() => new CompiledMap(wrong), TypeError);
  }
});

test('says of damaged bytes what it cannot read', () => {
  const bytes = compile(README);
  const tables = bytes.readUInt32LE(TABLES);
  const compiled = () => new CompiledMap(bytes);
  const text = bytes.readUInt32LE(tables + OF_A_BLOCK);
  bytes[text] = 0xff;
  for (const call of [() => compiled().source(0), () => compiled().verify(),
    () => compiled().originalPositionFor({ line: 1, column: 0 })]) {
    assert.throws(call, { code: 'UTF8' });
  }
  bytes.writeUInt32LE(NONE, tables + OF_A_BLOCK);
  assert.throws(() => compiled().source(0), { code: 'COMPILED_TEXT' });
  assert.throws(() => compiled().verify(), { code: 'COMPILED_TEXT' });
  bytes.writeUInt32LE(200, tables);
  assert.throws(() => compiled().verify(), { code: 'COMPILED_ORDER' });
});

test('refuses what is no position', () => {
  const compiled = new CompiledMap(compile(README));
  assert.throws(() => compiled.originalPositionFor({ line: 0, column: 0 }), { code: 'BAD_POSITION' });
  assert.throws(() => compiled.originalPositionFor({ line: 1 }), TypeError);
  assert.throws(() => compiled.originalPositionFor({ line: 1, column: 0, bias: LEAST_UPPER_BOUND }), TypeError);
  assert.throws(() => compiled.originalPositionsFor([1, 0]), TypeError);
  for (const id of [-1, 1.5, 2 ** 32, '0']) assert.throws(() => compiled.source(id), TypeError);
});

test('a map that cannot be flattened is not compiled', () => {
  const index = { version: 3, sections: [{ offset: { line: 0, column: 0 }, url: 'u' }] };
  assert.throws(() => compile(index), { code: 'CANNOT_FLATTEN' });
});

test('workers share the bytes', async () => {
  const bytes = compile(README);
  const shared = new Uint8Array(new SharedArrayBuffer(bytes.length));
  shared.set(bytes);
  const source = `
    const { parentPort, workerData } = require('node:worker_threads');
    const { CompiledMap } = require(workerData.package);
    const map = new CompiledMap(workerData.shared);
    let sum = 0;
    for (let i = 0; i < 30000; i++) sum += map.originalPositionFor({ line: 1, column: i % 30 }).column;
    parentPort.postMessage(sum);
  `;
  const run = () => new Promise((resolve, reject) => {
    const worker = new Worker(source, { eval: true, workerData: { package: require.resolve('..'), shared } });
    worker.on('message', resolve);
    worker.on('error', reject);
  });
  // for each token: how many columns it answers, times its original column
  const expected = 1000 * (3 * 0 + 3 * 4 + 2 * 8 + 4 * 0 + 3 * 4 + 2 * 9 + 1 * 12 + 6 * 2 + 6 * 8);
  assert.deepEqual(await Promise.all([run(), run(), run(), run()]), [expected, expected, expected, expected]);
});
