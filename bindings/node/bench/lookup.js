'use strict';

// Times this package beside @jridgewell/trace-mapping:
//
//   node bench/lookup.js MAP..
//
// For each map, and for positions at random and in order, it prints how many
// milliseconds of processor time each way takes to open the map and to answer a
// million positions: the median of some rounds, in which all ways take turns. The
// positions are at random, these in order, and those of the tokens, one after another.
// `segments` is traceSegment of both packages, which remapping calls for each token.

const { readFileSync } = require('node:fs');
const sourcemap = require('..');
const { peer, skip } = require('../support/peer.js');
const { Random } = require('../support/random.js');

const COUNT = 1e6;
const ROUNDS = 7;

/** Positions with lines from 1 and columns from 0. Each token makes its line as likely as any other. */
function randomPositions(mappings) {
  const random = new Random(1);
  const lines = mappings.flatMap((line, number) => new Array(line.length).fill(number));
  return random.list(COUNT, () => {
    const line = random.pick(lines);
    return [line + 1, random.below(mappings[line].at(-1)[0] + 10)];
  });
}

function askPositions(call, map, positions) {
  let sum = 0;
  for (let i = 0; i < positions.length; i += 2) {
    const { line, column } = call(map, { line: positions[i], column: positions[i + 1] });
    sum += (line ?? 0) + (column ?? 0);
  }
  return sum;
}

/** The sum of all lines and columns of answers of four words, as the addon writes them. */
function sumOf(answers) {
  let sum = 0;
  for (let i = 0; i < answers.length; i += 4) sum += answers[i + 1] + answers[i + 2];
  return sum;
}

function askSegments({ traceSegment }, map, positions) {
  let sum = 0;
  for (let i = 0; i < positions.length; i += 2) {
    const segment = traceSegment(map, positions[i] - 1, positions[i + 1]);
    if (segment !== null && segment.length > 1) sum += segment[2] + 1 + segment[3];
  }
  return sum;
}

const ways = {
  'trace-mapping': (text, positions) => askPositions(peer.originalPositionFor, new peer.AnyMap(text), positions),
  'this package': (text, positions) =>
    askPositions(sourcemap.originalPositionFor, new sourcemap.AnyMap(text), positions),
  'in one call': (text, positions) => sumOf(sourcemap.originalPositionsFor(new sourcemap.AnyMap(text), positions)),
  'its segments': (text, positions) => askSegments(peer, new peer.AnyMap(text), positions),
  segments: (text, positions) => askSegments(sourcemap, new sourcemap.AnyMap(text), positions),
};

function processorTime() {
  const { user, system } = process.cpuUsage();
  return (user + system) / 1000;
}

function medianOf(times) {
  return times.sort((a, b) => a - b)[times.length >>> 1];
}

function measure(text, positions) {
  const times = Object.fromEntries(Object.keys(ways).map((way) => [way, []]));
  const sums = new Set();
  for (let round = 0; round < ROUNDS; round++) {
    for (const [way, run] of Object.entries(ways)) {
      global.gc?.();
      const start = processorTime();
      sums.add(run(text, positions));
      times[way].push(processorTime() - start);
    }
  }
  if (sums.size !== 1) throw new Error(`the ways differ: ${[...sums]}`);
  return Object.fromEntries(Object.entries(times).map(([way, each]) => [way, medianOf(each)]));
}

function report(file) {
  const text = readFileSync(file, 'utf8').replace(/^[)\]}'][^\n]*/, '');
  const mappings = sourcemap.decodedMappings(sourcemap.AnyMap(text));
  const random = randomPositions(mappings);
  const tokens = mappings.flatMap((line, number) => line.map(([column]) => [number + 1, column]));
  const orders = {
    random,
    'in order': [...random].sort((a, b) => a[0] - b[0] || a[1] - b[1]),
    'each token': Array.from({ length: COUNT }, (_, i) => tokens[i % tokens.length]),
  };
  for (const [order, list] of Object.entries(orders)) {
    const medians = measure(text, Uint32Array.from(list.flat()));
    const peers = medians['trace-mapping'];
    const times = Object.entries(medians).map(([way, time]) => `${way} ${time.toFixed(0)} (${(time / peers).toFixed(2)})`);
    console.log(`${file}: ${order}: ${times.join(', ')} ms`);
  }
}

if (skip) console.log(skip);
else process.argv.slice(2).forEach(report);
