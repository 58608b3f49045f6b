'use strict';

const assert = require('node:assert/strict');
const { test } = require('node:test');
const { setFlagsFromString } = require('node:v8');
const { runInNewContext } = require('node:vm');
const { Worker } = require('node:worker_threads');
const sourcemap = require('..');
const { native } = require('../lib/native.js');

setFlagsFromString('--expose-gc');
const collect = runInNewContext('gc');

const small = { version: 3, sources: ['a.js'], names: ['n'], mappings: 'AAAAA' };
const nested = { version: 3, sections: [{ offset: { line: 1, column: 0 }, map: small }] };

/** Finalizers run in turns of the event loop after the collection. */
async function openAfterCollection(expected) {
  for (let i = 0; i < 50 && native.openCount() > expected; i++) {
    collect();
    await new Promise((resolve) => setTimeout(resolve, 10));
  }
  return native.openCount();
}

function openMany(count) {
  for (let i = 0; i < count; i++) {
    sourcemap.originalPositionFor(new sourcemap.TraceMap(small), { line: 1, column: 0 });
    sourcemap.encodedMappings(sourcemap.AnyMap(nested));
    sourcemap.encodedMappings(new sourcemap.TraceMap({ ...small, mappings: [[[0, 0, 0, 0, 0]]] }));
    assert.throws(() => new sourcemap.TraceMap({ ...small, mappings: 'ACAA' }));
    assert.throws(() => sourcemap.AnyMap({ version: 3, sections: [{ offset: { line: 0, column: 0 } }] }));
  }
}

test('maps without users are closed', async () => {
  const before = await openAfterCollection(0);
  const kept = new sourcemap.TraceMap(small);
  openMany(500);
  assert.ok(native.openCount() > before + 1);
  assert.equal(await openAfterCollection(before + 1), before + 1);
  assert.equal(sourcemap.originalPositionFor(kept, { line: 1, column: 0 }).source, 'a.js');
});

test('the memory of a map is reported to the collector', async () => {
  // this call makes almost no garbage in JavaScript: only the memory of the library grows
  const words = new Uint32Array(7 * 100000);
  let most = 0;
  for (let round = 0; round < 100; round++) {
    native.build(words, 0, 0);
    await new Promise(setImmediate);
    most = Math.max(most, native.openCount());
  }
  assert.ok(most < 60, `${most} maps were open at a time`);
});

/** Runs a worker that opens maps and keeps them, and returns its last message. */
function inWorker(source, data) {
  return new Promise((resolve, reject) => {
    const worker = new Worker(source, { eval: true, workerData: data });
    let answer;
    worker.on('message', (message) => (answer = message));
    worker.on('error', reject);
    worker.on('exit', (code) => (code === 0 ? resolve(answer) : reject(new Error(`the worker ended with ${code}`))));
  });
}

const WORK = `
  const { parentPort, workerData } = require('node:worker_threads');
  const sourcemap = require(workerData.package);
  globalThis.kept = Array.from({ length: 50 }, () => new sourcemap.TraceMap(workerData.map));
  let sum = 0;
  for (let i = 0; i < 200000; i++) sum += sourcemap.originalPositionFor(kept[i % 50], { line: 1, column: i % 9 }).column;
  let error = null;
  try { new sourcemap.TraceMap('{}') } catch (each) { error = each instanceof sourcemap.SourceMapError && each.code }
  parentPort.postMessage({ sum, error });
`;

test('workers load the addon side by side, and close their maps when they end', async () => {
  const before = native.openCount();
  const data = { package: require.resolve('..'), map: { ...small, mappings: 'AAAA,CAAC,CAAC' } };
  // each nine calls answer the columns 0, 1, and seven times 2: in sum 15
  const expected = { sum: 22222 * 15 + 0 + 1, error: 'INCOMPATIBLE' };
  for (let round = 0; round < 3; round++) {
    const answers = await Promise.all([1, 2, 3].map(() => inWorker(WORK, data)));
    assert.deepEqual(answers, [expected, expected, expected]);
  }
  assert.ok(native.openCount() <= before);
});

test('a worker that is ended at work closes its maps', async () => {
  const before = native.openCount();
  const worker = new Worker(`
    const { parentPort, workerData } = require('node:worker_threads');
    const { TraceMap, originalPositionFor } = require(workerData.package);
    const map = new TraceMap(workerData.map);
    parentPort.postMessage('open');
    for (;;) originalPositionFor(map, { line: 1, column: 0 });
  `, { eval: true, workerData: { package: require.resolve('..'), map: small } });
  await new Promise((resolve) => worker.once('message', resolve));
  await worker.terminate();
  assert.ok(native.openCount() <= before);
});
