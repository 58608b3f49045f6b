'use strict';

const assert = require('node:assert/strict');
const { test } = require('node:test');
const sourcemap = require('..');
const { Tokens } = require('../lib/tokens.js');
const { Random, randomMap } = require('../support/random.js');
const { realMaps } = require('../support/maps.js');

const { NONE } = sourcemap;

/** Compares the answers to single positions, and the search in the tokens, with the library's answers to many. */
function sameAnswers(map, positions) {
  const answers = sourcemap.originalPositionsFor(map, positions);
  for (let i = 0; 2 * i < positions.length; i++) {
    const [line, column] = positions.subarray(2 * i);
    const [source, originalLine, originalColumn, name] = answers.subarray(4 * i);
    const found = sourcemap.originalPositionFor(map, { line, column });
    const segment = sourcemap.traceSegment(map, line - 1, column);
    if (source === NONE) {
      assert.deepEqual(found, { source: null, line: null, column: null, name: null }, `${line}:${column}`);
      assert.ok(segment === null || segment.length === 1, `${line}:${column}`);
      continue;
    }
    assert.deepEqual(found, {
      source: map.resolvedSources[source],
      line: originalLine,
      column: originalColumn,
      name: name === NONE ? null : map.names[name],
    }, `${line}:${column}`);
    assert.deepEqual([segment[1], segment[2] + 1, segment[4] ?? NONE], [source, originalLine, name], `${line}:${column}`);
    // within a range the answer is as far from the token's
    assert.ok([0, column - segment[0]].includes(originalColumn - segment[3]), `${line}:${column}`);
  }
}

function allPositions(lines, columns) {
  const positions = [];
  for (let line = 1; line <= lines; line++) {
    for (let column = 0; column <= columns; column++) positions.push(line, column);
  }
  return Uint32Array.from(positions);
}

test('one lookup, many and a search in the tokens answer the same: small maps, all positions', () => {
  const random = new Random(11);
  const digits = 'ABCDEFGHIJKLMNOPQRSTUVWXYZabcdef';
  for (let i = 0; i < 200; i++) {
    const map = randomMap(random);
    sameAnswers(new sourcemap.TraceMap(map), allPositions(8, 20));
    // with random range bits, some past the last segment
    const rangeMappings = random.list(6, () => random.pick(digits)).join(';');
    const { mappings } = sourcemap.encodedMap(new sourcemap.TraceMap(map));
    const ranged = new sourcemap.TraceMap({ ...map, mappings, rangeMappings });
    const positions = allPositions(8, 20);
    sameAnswers(ranged, positions);
    // in any order: what one answer says of the next positions does not hold before it
    sameAnswers(ranged, Uint32Array.from(random.list(300, () => 2 * random.below(positions.length / 2))
      .flatMap((at) => [...positions.subarray(at, at + 2)])));
  }
});

test('one lookup, many and a search in the tokens answer the same: real maps', (t) => {
  const random = new Random(12);
  let count = 0;
  for (const { text } of realMaps(200)) {
    const map = sourcemap.AnyMap(text);
    const positions = [];
    const mappings = sourcemap.decodedMappings(map);
    for (let i = 0; i < 1000; i++) {
      const line = random.below(mappings.length);
      const column = mappings[line].length === 0 ? 0 : random.pick(mappings[line])[0];
      positions.push(line + 1, Math.max(column + random.below(7) - 3, 0));
    }
    sameAnswers(map, Uint32Array.from(positions));
    // from token to token, with a few steps back and ahead
    const tokens = mappings.flatMap((line, number) => line.map(([column]) => [number + 1, column])).slice(0, 2000);
    sameAnswers(map, Uint32Array.from(tokens.flatMap((at, i) => (i % 97 === 96 ? [at, random.pick(tokens), at] : [at]).flat())));
    count++;
  }
  if (count === 0) t.skip('no real maps here');
});

test('without a table of lines a search finds the same', () => {
  const fields = (spread) => ({
    isWide: spread > 1,
    lines: Uint32Array.of(0, 0, 3 * spread, 3 * spread, 5 * spread),
    columns: Uint32Array.of(2, 7, 0, 0, 9),
    originals: new Uint32Array(20),
    ranges: new Uint8Array(5),
  });
  const [near, far] = [new Tokens(fields(1)), new Tokens(fields(800000000))];
  for (let line = 0; line < 7; line++) {
    for (let column = 0; column < 12; column++) {
      assert.equal(far.find(line * 800000000, column), near.find(line, column));
      assert.equal(far.findUpper(line * 800000000, column), near.findUpper(line, column));
    }
  }
  assert.equal(far.find(1, 5), -1);
  assert.equal(near.find(3, 0), 2);
  assert.equal(near.findUpper(3, 0), 3);
});

test('original positions are sorted by all of their 32 bits', () => {
  const random = new Random(13);
  const count = 500;
  const number = () => random.pick([random.below(4), random.below(5000), random.below(2 ** 32)]);
  const mappings = [random.list(count, (i) => [i, random.below(2), number(), number()])];
  const map = new sourcemap.TraceMap({ version: 3, sources: ['a.js', 'b.js'], names: [], mappings });
  for (const [column, source, line, originalColumn] of mappings[0]) {
    const first = mappings[0].find((each) => `${each.slice(1)}` === `${[source, line, originalColumn]}`);
    assert.ok(first[0] <= column);
    const needle = { source: map.sources[source], line: line + 1, column: originalColumn };
    assert.deepEqual(sourcemap.generatedPositionFor(map, needle), { line: 1, column: first[0] });
  }
});
