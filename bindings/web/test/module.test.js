import assert from 'node:assert/strict';
import { execFileSync } from 'node:child_process';
import { mkdtempSync, readFileSync, rmSync, writeFileSync } from 'node:fs';
import { createServer } from 'node:http';
import { tmpdir } from 'node:os';
import path from 'node:path';
import { test } from 'node:test';
import { fileURLToPath, pathToFileURL } from 'node:url';
import { gzipSync } from 'node:zlib';
import { CompiledMap, NONE, SourceMapError, parseSegment } from '../out/sourcemap.js';
import { ALL, make } from './made.js';
import { Random } from './random.js';

const here = path.dirname(fileURLToPath(import.meta.url));
const wasm = path.join(here, '../out/sourcemap.wasm');
const NOWHERE = { source: null, line: null, column: null, name: null };

/** Checks that a promise or a call fails with this code. */
async function refuses(code, call) {
  await assert.rejects(async () => call(), (error) => {
    assert.ok(error instanceof SourceMapError, error.stack);
    assert.equal(error.code, code);
    return true;
  });
}

/** A map of one token, whose one source has this name. */
function named(name, size = 0) {
  return make({ tokens: [[0, 0, 0, 0, 0, NONE]], sources: [name], contents: ['x'.repeat(size)] });
}

test('has the parts of a map', async () => {
  const map = await CompiledMap.load(ALL);
  assert.deepEqual([map.tokenCount, map.sourceCount, map.nameCount], [6, 2, 2]);
  assert.deepEqual([map.file, map.debugId], ['out.js', '00010203-0405-0607-0809-0a0b0c0d0e0f']);
  assert.deepEqual(map.sources, ['src/a.js', 'src/ü😀.js']);
  assert.deepEqual(map.names, ['x', 'toString']);
  assert.deepEqual([map.source(1), map.source(2), map.name(1), map.name(NONE)], ['src/ü😀.js', null, 'toString', null]);
  assert.equal(map.sourceContent(0), 'var x;\nvar y;\r\nß = 1');
  assert.deepEqual([map.sourceContent(1), map.sourceContent(2)], [null, null]);
  assert.equal(map.sourceContentFor('src/a.js'), map.sourceContent(0));
  assert.deepEqual([map.sourceContentFor('src/ü😀.js'), map.sourceContentFor('a.js')], [null, null]);
  map.verify();
  map.close();
});

test('has lines of contents and parts of lines', async () => {
  const contents = ['var x;\nvar y;\r\nß = 1', '', '\r😀a\r\n\n', null];
  const map = await CompiledMap.load(make({ sources: ['a', 'b', 'c', 'd'], contents }));
  const lines = (id) => Array.from({ length: 6 }, (_, i) => map.sourceLine(id, i));
  assert.deepEqual(lines(0), [null, 'var x;', 'var y;', 'ß = 1', null, null]);
  assert.deepEqual(lines(1), [null, '', null, null, null, null]);
  assert.deepEqual(lines(2), [null, '', '😀a', '', '', null]);
  assert.deepEqual(lines(3), Array(6).fill(null));
  assert.deepEqual(lines(4), Array(6).fill(null));
  assert.equal(map.sourceLine(0, 1.5), 'var x;');
  const slice = (...place) => map.sourceSlice(...place);
  assert.deepEqual([slice(0, 3, 0, 1), slice(0, 3, 2, 3), slice(0, 3, 2, 4), slice(0, 1, 6, 0)], ['ß', '= 1', null, '']);
  assert.deepEqual([slice(2, 2, 0, 2), slice(2, 2, 1, 1), slice(2, 2, 1, 2), slice(2, 2, 4, 0)], ['😀', '', 'a', null]);
  assert.equal(slice(3, 1, 0, 0), null);
  assert.throws(() => slice(0, 1, -1, 0), TypeError);
  assert.throws(() => map.sourceLine('0', 1), TypeError);
  map.close();
});

test('an empty map has no answers', async () => {
  const map = await CompiledMap.load(make({}));
  assert.deepEqual([map.tokenCount, map.file, map.debugId, map.sources, map.names], [0, null, null, [], []]);
  assert.deepEqual(map.originalPositionFor({ line: 1, column: 0 }), NOWHERE);
  assert.deepEqual([...map.closestTokens(Uint32Array.of(0, 0))], Array(8).fill(0));
  assert.equal(map.tokensFrom(0, 0, new Uint32Array(8)), 0);
  map.close();
});

test('looks up positions of all kinds', async () => {
  const map = await CompiledMap.load(ALL);
  const at = (line, column) => map.originalPositionFor({ line, column });
  assert.deepEqual(at(1, 1), NOWHERE);
  assert.deepEqual(at(1, 2), { source: 'src/a.js', line: 5, column: 1, name: 'x' });
  assert.deepEqual(at(1, 4.7), { source: 'src/a.js', line: 5, column: 1, name: 'x' });
  assert.deepEqual(at(1, 6), NOWHERE);
  assert.deepEqual(at(1, 9), { source: 'src/ü😀.js', line: 8, column: 3, name: null });
  assert.deepEqual(at(1, 19), { source: 'src/ü😀.js', line: 8, column: 13, name: null });
  assert.deepEqual(at(1, Infinity), { source: 'src/ü😀.js', line: 8, column: NONE - 6, name: null });
  assert.deepEqual(at(2, 0), NOWHERE);
  assert.deepEqual(at(3, 0), { source: 'src/ü😀.js', line: 9, column: 0, name: 'toString' });
  assert.deepEqual(at(3, 3), { source: 'src/a.js', line: 10, column: 9, name: 'x' });
  assert.deepEqual(at(2 ** 32 + 1, 0), NOWHERE);
  assert.deepEqual([1, 4, 5, 9].map((column) => map.scopeFor({ line: 1, column })), [null, 'main', null, 'inner']);
  assert.equal(map.scopeFor({ line: 2, column: 0 }), null);
  map.close();
});

test('looks up many positions', async () => {
  const map = await CompiledMap.load(ALL);
  const positions = Uint32Array.of(1, 3, 1, 5, 1, 12, 2, 0, 3, 0, NONE, NONE);
  const wanted = [0, 5, 1, 0, NONE, 0, 0, NONE, 1, 8, 6, NONE, NONE, 0, 0, NONE, 1, 9, 0, 1, NONE, 0, 0, NONE];
  assert.deepEqual([...map.lookupMany(positions)], wanted);
  const answers = new Uint32Array(30).fill(7);
  assert.equal(map.lookupMany(positions, answers), answers);
  assert.deepEqual([...answers], [...wanted, 7, 7, 7, 7, 7, 7]);
  // more than one call of the module
  const many = Uint32Array.from({ length: 20001 }, (_, i) => positions[i % positions.length]);
  const found = map.lookupMany(many);
  assert.equal(found.length, 40000);
  assert.ok(found.every((word, i) => word === wanted[i % wanted.length]));
  assert.deepEqual([...map.closestTokens(Uint32Array.of(0, 12, 1, 1, 0, 0))],
    [0, 9, 7, 6, 1, NONE, 1, 1, 0, 9, 7, 3, 1, NONE, 1, 1, 0, 0, 0, 0, 0, 0, 0, 0]);
  map.close();
});

test('has all tokens by index', async () => {
  const map = await CompiledMap.load(ALL);
  const all = [[0, 2, 4, 1, 0, 0, 0, 1], [0, 5, NONE, NONE, NONE, NONE, 0, 1], [0, 9, 7, 3, 1, NONE, 1, 1],
    [2, 0, 8, 0, 1, 1, 0, 1], [2, 0, 9, 9, 0, 0, 0, 1], [2, 4, 10, 2, 0, 1, 0, 1]];
  assert.deepEqual(all.map((_, index) => [...map.token(index)]), all);
  assert.deepEqual([map.token(6), map.token(NONE)], [null, null]);
  const tokens = new Uint32Array(8 * 4 + 7).fill(7);
  assert.equal(map.tokensAt(1, tokens), 4);
  assert.deepEqual([...tokens], [...all.slice(1, 5).flat(), ...Array(7).fill(7)]);
  assert.equal(map.tokensAt(4, tokens), 2);
  assert.deepEqual([...tokens.subarray(0, 16)], all.slice(4).flat());
  assert.deepEqual([map.tokensAt(6, tokens), map.tokensAt(NONE, tokens), map.tokensAt(0, new Uint32Array(7))], [0, 0, 0]);
  map.close();
});

test('has the numbers of segments', async () => {
  assert.deepEqual(await parseSegment('AAgBC'), BigInt64Array.of(0n, 0n, 16n, 1n));
  assert.deepEqual(await parseSegment('DgAB'), BigInt64Array.of(-1n, 0n, 0n));
  assert.deepEqual(await parseSegment('+///////////H'), BigInt64Array.of(2n ** 62n - 1n));
  const many = await parseSegment('C'.repeat(200000));
  assert.ok(many.length === 200000 && many.every((number) => number === 1n));
  await refuses('VLQ_NO_VALUES', () => parseSegment(''));
  await refuses('VLQ_LEFTOVER', () => parseSegment('AAg'));
  await refuses('VLQ_OVERFLOW', () => parseSegment('AggggggggggggI'));
  await refuses('INVALID_BASE64', () => parseSegment('AAé'));
  await assert.rejects(parseSegment(1), TypeError);
});

test('walks over tokens, of equal positions the first', async () => {
  const map = await CompiledMap.load(ALL);
  const tokens = new Uint32Array(8 * 10);
  assert.equal(map.tokensFrom(0, 0, tokens), 5);
  assert.deepEqual(Array.from({ length: 5 }, (_, i) => [...tokens.subarray(8 * i, 8 * i + 2)]),
    [[0, 2], [0, 5], [0, 9], [2, 0], [2, 4]]);
  assert.deepEqual([...tokens.subarray(24, 32)], [2, 0, 8, 0, 1, 1, 0, 1]);
  assert.equal(map.tokensFrom(0, 3, tokens.subarray(0, 16)), 2);
  assert.deepEqual([tokens[1], tokens[9]], [5, 9]);
  assert.equal(map.tokensFrom(2, 5, tokens), 0);
  map.close();
});

test('walks over tokens that are far from one another', async () => {
  const places = [[0, 5000], [0, 3000000], [7, 0], [7, NONE], [900000, 1], [NONE, NONE]];
  const map = await CompiledMap.load(make({ tokens: places.map(([line, column]) => [line, column, 0, 1, 2, NONE]) }));
  const tokens = new Uint32Array(8 * 7);
  assert.equal(map.tokensFrom(0, 0, tokens), 6);
  assert.deepEqual(places.map((_, i) => [tokens[8 * i], tokens[8 * i + 1]]), places);
  assert.equal(map.tokensFrom(NONE, NONE, tokens), 1);
  assert.equal(map.tokensFrom(7, 2 ** 32, tokens), 2);
  map.close();
});

test('a walk over a map out of order ends', async () => {
  const map = await CompiledMap.load(make({
    tokens: Array.from({ length: 300 }, (_, i) => [(i * 7919) % 50, (i * 104729) % 1000000, 0, i, 0, NONE]),
  }));
  await refuses('COMPILED_ORDER', () => map.verify());
  assert.ok(map.tokensFrom(0, 0, new Uint32Array(8 * 1000)) <= 1000);
  map.close();
});

test('opens all kinds of inputs', async (t) => {
  const folder = mkdtempSync(path.join(tmpdir(), 'web-'));
  const server = createServer((request, response) => {
    if (request.url === '/all') response.writeHead(200).end(ALL);
    else if (request.url === '/gzip') response.writeHead(200, { 'content-encoding': 'gzip' }).end(gzipSync(ALL));
    else if (request.url === '/broken') response.writeHead(200, { 'content-length': ALL.length }).write(ALL.subarray(0, 99), () => response.destroy());
    else response.writeHead(404).end('no');
  });
  await new Promise((done) => { server.listen(0, '127.0.0.1', done); });
  t.after(() => { server.close(); rmSync(folder, { recursive: true }); });
  const [file, url] = [path.join(folder, 'all.smc'), `http://127.0.0.1:${server.address().port}`];
  writeFileSync(file, ALL);
  const padded = new Uint8Array(ALL.length + 9);
  padded.set(ALL, 5);
  const shared = new SharedArrayBuffer(ALL.length);
  new Uint8Array(shared).set(ALL);
  const inputs = [ALL, ALL.buffer, Buffer.from(ALL), padded.subarray(5, 5 + ALL.length), new DataView(ALL.buffer), shared,
    new Blob([ALL]), new Blob([ALL]).stream(), new Response(ALL), file, pathToFileURL(file), pathToFileURL(file).href,
    `${url}/all`, new URL(`${url}/all`), new Request(`${url}/all`), `${url}/gzip`];
  for (const input of inputs) {
    const map = await CompiledMap.load(input);
    assert.equal(map.file, 'out.js');
    map.close();
  }
  await refuses('IO', () => CompiledMap.load(`${url}/none`));
  await refuses('IO', () => CompiledMap.load(`${url}/broken`));
  await refuses('IO', () => CompiledMap.load(path.join(folder, 'none')));
  for (const input of [undefined, null, 7, {}, [1]]) await assert.rejects(CompiledMap.load(input), TypeError);
});

test('takes a buffer over', async () => {
  const padded = new Uint8Array(ALL.length + 9);
  padded.set(ALL, 5);
  const inputs = [ALL.slice(), ALL.slice().buffer, padded.subarray(5, 5 + ALL.length), new DataView(ALL.slice().buffer)];
  const places = Array.from({ length: 24 }, (_, i) => ({ line: 1 + (i >> 3), column: i % 8 }));
  const copied = await CompiledMap.load(ALL);
  const answers = places.map((place) => copied.originalPositionFor(place));
  assert.ok(answers.some(({ source }) => source === 'src/a.js'));
  copied.close();
  for (const input of inputs) {
    const map = await CompiledMap.load(input, { transfer: true });
    assert.equal((input.buffer ?? input).byteLength, 0);
    assert.deepEqual(places.map((place) => map.originalPositionFor(place)), answers);
    assert.equal(map.file, 'out.js');
    map.verify();
    map.close();
    assert.throws(() => map.file, { code: 'CLOSED' });
  }
  const sizes = [0, 100000, 300000];
  const maps = [];
  for (const size of sizes) maps.push(await CompiledMap.load(named(`source ${size}`, size), { transfer: true }));
  (await CompiledMap.load(ALL.slice(), { transfer: true })).close();
  for (const [i, size] of sizes.entries()) {
    assert.equal(maps[i].originalPositionFor({ line: 1, column: 0 }).source, `source ${size}`);
    assert.equal(maps[i].sourceContent(0), 'x'.repeat(size));
    maps[i].close();
  }
});

test('a buffer that is refused stays as it was', async () => {
  const wrong = ALL.slice();
  wrong[0] = 0;
  await refuses('COMPILED_MAGIC', () => CompiledMap.load(wrong, { transfer: true }));
  assert.deepEqual(wrong.subarray(1), ALL.subarray(1));
  await refuses('COMPILED_TRUNCATED', () => CompiledMap.load(ALL.slice(0, -1).buffer, { transfer: true }));
  await refuses('COMPILED_TRUNCATED', () => CompiledMap.load(new ArrayBuffer(0), { transfer: true }));
  const shared = new SharedArrayBuffer(ALL.length);
  for (const input of [shared, new Uint8Array(shared), new Blob([ALL]), new Response(ALL), 'all.smc', null, undefined, 7]) {
    await assert.rejects(CompiledMap.load(input, { transfer: true }), TypeError);
  }
});

/** A stream of bytes in pieces of this length. Between two of them, other streams go on. */
function inPieces(bytes, length, error = null) {
  let at = 0;
  return new ReadableStream({
    async pull(controller) {
      await new Promise(setImmediate);
      if (at < bytes.length) controller.enqueue(bytes.slice(at, at + length));
      else if (error === null) controller.close();
      else controller.error(error);
      at += length;
    },
  });
}

test('streams that come at once are put together', async () => {
  const sizes = [0, 10, 3000, 40000, 200000, 700000];
  const open = async (size, input) => [size, await CompiledMap.load(input(named(`source ${size}`, size)))];
  const response = (said) => (bytes) => new Response(inPieces(bytes, 5000), { headers: { 'content-length': said(bytes.length) } });
  const inputs = [(bytes) => inPieces(bytes, 1 + (bytes.length >> 8)), response((length) => length), response((length) => length >> 1),
    response((length) => 3 * length), response(() => 'much')];
  const maps = await Promise.all(inputs.flatMap((input) => sizes.map((size) => open(size, input))));
  for (const [size, map] of maps) {
    map.verify();
    assert.equal(map.originalPositionFor({ line: 1, column: 0 }).source, `source ${size}`);
    assert.equal(map.sourceContent(0), 'x'.repeat(size));
  }
  for (const [, map] of maps) map.close();
});

test('a stream that fails is refused', async () => {
  const long = named('a', 3000000);
  const broken = new Response(inPieces(long, 100000, new Error('gone')));
  await refuses('IO', () => CompiledMap.load(broken));
  await assert.rejects(CompiledMap.load(inPieces(long, 100000, new RangeError('gone'))), RangeError);
  await assert.rejects(CompiledMap.load(new ReadableStream({ start: (stream) => stream.enqueue('a text') })), TypeError);
  await refuses('COMPILED_MAGIC', () => CompiledMap.load(inPieces(new Uint8Array(3000000), 100000)));
  await refuses('COMPILED_TRUNCATED', () => CompiledMap.load(new ReadableStream({ start: (stream) => stream.close() })));
  await refuses('COMPILED_TRUNCATED', () => CompiledMap.load(new Response(null)));
  const read = new Response(named('a'));
  await read.arrayBuffer();
  await refuses('IO', () => CompiledMap.load(read));
  let reason = null;
  const wrong = { pull: (stream) => stream.enqueue('a text'), cancel: () => { reason = 'cancelled'; } };
  await assert.rejects(CompiledMap.load(new ReadableStream(wrong)), TypeError);
  assert.equal(reason, 'cancelled');
});

test('refuses what is no compiled map', async () => {
  const wrong = (at, byte) => ALL.map((old, i) => (i === at ? byte : old));
  await refuses('COMPILED_TRUNCATED', () => CompiledMap.load(new Uint8Array()));
  await refuses('COMPILED_TRUNCATED', () => CompiledMap.load(ALL.subarray(0, ALL.length - 1)));
  await refuses('COMPILED_MAGIC', () => CompiledMap.load(new TextEncoder().encode('{"version":3}'.padEnd(64))));
  await refuses('COMPILED_VERSION', () => CompiledMap.load(wrong(4, 2)));
  await refuses('COMPILED_EXTENT', () => CompiledMap.load(wrong(8, ALL[8] - 1)));
  const text = await CompiledMap.load(wrong(ALL.lastIndexOf(0x33), 0x33));
  text.close();
});

test('damaged texts are errors where they are read', async () => {
  const bytes = ALL.slice();
  bytes[ALL.findIndex((_, i) => new TextDecoder().decode(ALL.subarray(i, i + 8)) === 'src/a.js')] = 0xff;
  const map = await CompiledMap.load(bytes);
  assert.equal(map.name(0), 'x');
  await refuses('UTF8', () => map.source(0));
  await refuses('UTF8', () => map.verify());
  await refuses('UTF8', () => map.originalPositionFor({ line: 1, column: 2 }));
  assert.equal(map.originalPositionFor({ line: 1, column: 9 }).source, 'src/ü😀.js');
  map.close();
});

/** Characters at the edges of the lengths of UTF-8, and bytes at the edges of what may stand where. */
const CHARACTERS = [0, 0x41, 0x7f, 0x80, 0x7ff, 0x800, 0xfff, 0x1000, 0xcfff, 0xd000, 0xd7ff, 0xe000, 0xfeff, 0xffff,
  0x10000, 0x3ffff, 0x40000, 0xfffff, 0x100000, 0x10ffff];
const EDGES = [0, 0x7f, 0x80, 0x8f, 0x90, 0x9f, 0xa0, 0xbf, 0xc0, 0xc1, 0xc2, 0xdf, 0xe0, 0xe1, 0xec, 0xed, 0xee, 0xef, 0xf0,
  0xf1, 0xf3, 0xf4, 0xf5, 0xff];

/** A text of up to 200 characters in UTF-8, of which a byte may be changed, or others left out at the end. */
function nearlyUtf8(random) {
  const length = random.below(200);
  const isAscii = random.below(2) === 0;
  const characters = Array.from({ length }, () => (isAscii && random.below(10) > 0 ? 0x61 : random.pick(CHARACTERS)));
  const bytes = new TextEncoder().encode(String.fromCodePoint(...characters));
  if (bytes.length === 0 || random.below(3) === 0) return bytes;
  const at = random.below(bytes.length);
  if (random.below(3) === 0) return bytes.subarray(0, at);
  bytes[at] = random.pick(EDGES);
  return bytes;
}

/** The text of bytes, or the code of the error that there is none. */
function decoded(bytes) {
  try {
    return new TextDecoder('utf-8', { fatal: true, ignoreBOM: true }).decode(bytes);
  } catch {
    return 'UTF8';
  }
}

function contentOf(map) {
  try {
    return map.sourceContent(0);
  } catch (error) {
    return error.code;
  }
}

test('a text is one exactly if it is UTF-8', async () => {
  const random = new Random(1);
  let errors = 0;
  for (let i = 0; i < 5000; i += 1) {
    const text = nearlyUtf8(random);
    const bytes = make({ contents: ['a'.repeat(text.length)] });
    bytes.set(text, bytes.length - 1 - text.length);
    const map = await CompiledMap.load(bytes);
    const wanted = decoded(text);
    assert.equal(contentOf(map), wanted, Buffer.from(text).toString('hex'));
    if (wanted === 'UTF8') {
      errors += 1;
      await refuses('UTF8', () => map.verify());
    } else {
      map.verify();
    }
    map.close();
  }
  assert.ok(errors > 1000 && errors < 4000, `${errors} of 5000`);
});

test('arguments of wrong types are refused', async () => {
  const map = await CompiledMap.load(ALL);
  for (const needle of [undefined, null, 1, {}, { line: '1', column: 0 }, { line: 1, column: NaN }]) {
    assert.throws(() => map.originalPositionFor(needle), TypeError);
    assert.throws(() => map.scopeFor(needle), TypeError);
  }
  await refuses('BAD_POSITION', () => map.originalPositionFor({ line: 0, column: 0 }));
  await refuses('BAD_POSITION', () => map.originalPositionFor({ line: 1, column: -1 }));
  await refuses('BAD_POSITION', () => map.lookupMany(Uint32Array.of(1, 0, 0, 0)));
  for (const id of [-1, 0.5, 2 ** 32, '0', undefined]) assert.throws(() => map.source(id), TypeError);
  assert.throws(() => map.lookupMany([1, 0]), TypeError);
  assert.throws(() => map.lookupMany(Uint32Array.of(1, 0), new Uint32Array(3)), RangeError);
  assert.throws(() => map.closestTokens(Uint32Array.of(1, 0), new Uint32Array(7)), RangeError);
  assert.throws(() => map.sourceContentFor(0), TypeError);
  assert.throws(() => map.tokensFrom(0, 0, []), TypeError);
  assert.throws(() => map.tokensAt(0, []), TypeError);
  assert.throws(() => map.token(-1), TypeError);
  assert.throws(() => new CompiledMap({}, ALL), TypeError);
  map.close();
});

test('a closed map is refused, and closing twice is not', async () => {
  const map = await CompiledMap.load(ALL);
  map.close();
  map.close();
  const calls = [() => map.file, () => map.sourceLine(0, 1), () => map.tokenCount, () => map.sources, () => map.source(0), () => map.verify(),
    () => map.originalPositionFor({ line: 1, column: 2 }), () => map.lookupMany(Uint32Array.of(1, 0)),
    () => map.token(0), () => map.tokensAt(0, new Uint32Array(8)), () => map.tokensFrom(0, 0, new Uint32Array(8))];
  for (const call of calls) await refuses('CLOSED', call);
});

test('maps keep to themselves while others come and go', async () => {
  const open = new Map();
  let drawn = 1;
  const random = (bound) => {
    drawn = (Math.imul(drawn, 1103515245) + 12345) & 0x7fffffff;
    return (drawn >> 8) % bound;
  };
  for (let round = 0; round < 600; round += 1) {
    const name = `source ${round}`;
    if (open.size < 20 || random(2) === 0) {
      const size = random(200000);
      open.set(name, [await CompiledMap.load(named(name, size)), size]);
    } else {
      const gone = [...open.keys()][random(open.size)];
      open.get(gone)[0].close();
      open.delete(gone);
    }
    for (const [wanted, [map, size]] of open) {
      assert.equal(map.originalPositionFor({ line: 1, column: 0 }).source, wanted);
      if (round % 50 === 0) assert.equal(map.sourceContent(0), 'x'.repeat(size));
    }
  }
  for (const [map] of open.values()) map.close();
});

test('memory that was given back is used again', async () => {
  const script = `
    import { CompiledMap } from ${JSON.stringify(pathToFileURL(path.join(here, '../out/sourcemap.js')).href)};
    import { make } from ${JSON.stringify(pathToFileURL(path.join(here, 'made.js')).href)};
    const memories = [];
    const Instance = WebAssembly.Instance;
    WebAssembly.Instance = function (...args) {
      const made = new Instance(...args);
      memories.push(made.exports.memory);
      return made;
    };
    const bytes = make({ sources: ['a'], contents: ['x'.repeat(3000000)] });
    const size = () => memories[0].buffer.byteLength;
    const first = await CompiledMap.load(bytes);
    const one = size();
    first.close();
    for (let i = 0; i < 50; i += 1) (await CompiledMap.load(bytes)).close();
    const again = size();
    const pieces = () => Array.from({ length: Math.ceil(bytes.length / 60000) }, (_, i) => bytes.slice(60000 * i, 60000 * (i + 1)));
    const stream = (error) => new ReadableStream({
      start(stream) {
        pieces().forEach((piece) => stream.enqueue(piece));
        if (error) stream.enqueue('no bytes');
        else stream.close();
      },
    });
    for (let i = 0; i < 9; i += 1) await CompiledMap.load(stream(true)).catch(() => {});
    const failed = size();
    (await CompiledMap.load(stream(false))).close();
    const streamed = size();
    const maps = [];
    for (let i = 0; i < 4; i += 1) maps.push(await CompiledMap.load(i % 2 ? bytes : stream(false)));
    const four = size();
    [0, 2, 1, 3].forEach((i) => maps[i].close());
    (await CompiledMap.load(make({ sources: ['a'], contents: ['x'.repeat(11000000)] }))).close();
    console.log(JSON.stringify({ length: bytes.length, instances: memories.length, one, again, failed, streamed, four, joined: size() }));`;
  const output = execFileSync(process.execPath, [...process.execArgv.filter((word) => word.includes('memory64')),
    '--input-type=module', '-e', script], { encoding: 'utf8' });
  const { length, instances, one, again, failed, streamed, four, joined } = JSON.parse(output);
  assert.equal(instances, 1);
  // the file and at most 1 MB
  assert.ok(one <= length + 2 ** 20, `${one} for ${length}`);
  assert.equal(again, one);
  assert.ok(failed <= length + 2 ** 20, `${failed} for ${length} in pieces`);
  assert.equal(streamed, failed);
  assert.ok(four <= 4 * length + 2 ** 20, `${four} for four of ${length}`);
  assert.equal(joined, four);
});

test('after a trap, which is a defect, another instance has the maps', async () => {
  const script = `
    import { CompiledMap } from ${JSON.stringify(pathToFileURL(path.join(here, '../out/sourcemap.js')).href)};
    import { ALL } from ${JSON.stringify(pathToFileURL(path.join(here, 'made.js')).href)};
    const Instance = WebAssembly.Instance;
    let count = 0;
    WebAssembly.Instance = function (...args) {
      const { exports } = new Instance(...args);
      count += 1;
      if (count > 1) return { exports };
      return { exports: { ...exports, sm_compiled_verify: () => { throw new WebAssembly.RuntimeError('unreachable'); } } };
    };
    const [one, two] = [await CompiledMap.load(ALL), await CompiledMap.load(ALL)];
    let code = null;
    try { one.verify(); } catch (error) { code = error.code; }
    two.verify();
    one.verify();
    console.log(JSON.stringify([code, count, one.originalPositionFor({ line: 1, column: 2 }).source, two.file]));`;
  const output = execFileSync(process.execPath, [...process.execArgv.filter((word) => word.includes('memory64')),
    '--input-type=module', '-e', script], { encoding: 'utf8' });
  assert.deepEqual(JSON.parse(output), ['TRAP', 2, 'src/a.js', 'out.js']);
});

/** Runs a script of one call in another process of Node, without the flag. Returns what it prints. */
function inPlainNode(script, words = []) {
  const from = JSON.stringify(pathToFileURL(path.join(here, '../out/sourcemap.js')).href);
  return execFileSync(process.execPath, [...words, '--input-type=module', '-e', `
    import { CompiledMap } from ${from};
    ${script}`], { encoding: 'utf8' });
}

test('without 64-bit memories an error says what to do, and nothing is read', () => {
  const printed = inPlainNode(`
    WebAssembly.validate = () => false;
    CompiledMap.useModule('/none.wasm');
    let touched = false;
    const input = { get url() { touched = true; return ''; } };
    try { await CompiledMap.load('/none'); } catch (error) {
      console.log(CompiledMap.isSupported(), error.code, error.message.includes('--experimental-wasm-memory64'));
    }`);
  assert.equal(printed, 'false NO_MEMORY64 true\n');
});

test('the module is taken from bytes, as a module, or from a URL', () => {
  const flags = process.execArgv.filter((word) => word.includes('memory64'));
  const load = `console.log((await CompiledMap.load(new Uint8Array(${JSON.stringify([...ALL])}))).file);`;
  const read = `(await import('node:fs')).readFileSync(${JSON.stringify(wasm)})`;
  for (const module of [read, `new WebAssembly.Module(${read})`, JSON.stringify(pathToFileURL(wasm).href)]) {
    assert.equal(inPlainNode(`CompiledMap.useModule(${module}); ${load}`, flags), 'out.js\n');
  }
  const wrong = `try { ${load} } catch (error) { console.log(error.code); }`;
  for (const module of [`new Uint8Array([0, 1, 2])`, `new Uint8Array([0, 0x61, 0x73, 0x6d, 1, 0, 0, 0])`, `'/none.wasm'`]) {
    assert.equal(inPlainNode(`CompiledMap.useModule(${module}); ${wrong}`, flags), 'NO_MODULE\n');
  }
});

test('the module has no imports, one memory, and at most 41 kB', () => {
  const bytes = readFileSync(wasm);
  const module = new WebAssembly.Module(bytes);
  assert.ok(bytes.length <= 41000, `${bytes.length} bytes`);
  assert.deepEqual(WebAssembly.Module.imports(module), []);
  assert.deepEqual(WebAssembly.Module.exports(module).filter(({ kind }) => kind === 'memory').length, 1);
});
