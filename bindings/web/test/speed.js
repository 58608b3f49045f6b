/** Times of the module beside @jridgewell/trace-mapping, in a page. */
import { CompiledMap } from '../out/sourcemap.js';
import { Random } from './random.js';

const ROUNDS = 15;
/** How many bytes are opened in a round at least: the clock has steps. */
const OPENED = 2 ** 21;
const PIECE = 2 ** 20;
const LOOKUPS = 1000000;
const SINGLE = 200000;
const utf8 = new TextDecoder();

function elapsed(call) {
  return async () => {
    const begun = performance.now();
    await call();
    return performance.now() - begun;
  };
}

/**
 * The least time of each call and the middle one, in ms. A call returns its time. A round makes each call, so that a busy
 * machine slows all alike.
 */
async function compared(calls, times = 1) {
  const taken = Object.fromEntries(Object.keys(calls).map((name) => [name, []]));
  for (let round = 0; round < ROUNDS; round += 1) {
    for (const [name, call] of Object.entries(calls)) {
      // the page answers in between
      await new Promise((done) => { setTimeout(done); });
      let sum = 0;
      for (let i = 0; i < times; i += 1) sum += await call();
      taken[name].push(sum / times);
    }
  }
  const summary = (list) => [0, ROUNDS >> 1].map((at) => Number(list.sort((a, b) => a - b)[at].toFixed(4)));
  return Object.fromEntries(Object.entries(taken).map(([name, list]) => [name, summary(list)]));
}

/** Positions near tokens: a line and a column for each, the line from 1. */
function drawPositions(map, count) {
  const tokens = new Uint32Array(8 * map.tokenCount);
  const found = map.tokensFrom(0, 0, tokens);
  const random = new Random(1);
  const positions = new Uint32Array(2 * count);
  for (let i = 0; i < count; i += 1) {
    const at = 8 * random.below(found);
    positions[2 * i] = tokens[at] + 1;
    positions[2 * i + 1] = tokens[at + 1] + random.below(3);
  }
  return positions;
}

function oneByOne(positions, count, originalPositionFor) {
  let sum = 0;
  for (let i = 0; i < count; i += 1) {
    const answer = originalPositionFor({ line: positions[2 * i], column: positions[2 * i + 1] });
    sum += answer.line ?? 0;
  }
  return sum;
}

async function answerOnce(input) {
  const map = await CompiledMap.load(input);
  map.originalPositionFor({ line: 1, column: 1000 });
  map.close();
}

/** The time until a map in a buffer that is given up is open, or has answered. */
async function afterTransfer(bytes, answers) {
  const { buffer } = bytes.slice();
  const begun = performance.now();
  const map = await CompiledMap.load(buffer, { transfer: true });
  if (answers) map.originalPositionFor({ line: 1, column: 1000 });
  const taken = performance.now() - begun;
  map.close();
  return taken;
}

/** The time from the end of a stream of the bytes until a map that is loaded from it has answered. */
async function afterStream(bytes) {
  let [at, ended] = [0, 0];
  await answerOnce(new ReadableStream({
    pull(stream) {
      if (at < bytes.length) {
        stream.enqueue(bytes.subarray(at, at += PIECE));
        return;
      }
      ended = performance.now();
      stream.close();
    },
  }, { highWaterMark: 0 }));
  return performance.now() - ended;
}

export async function speed(path) {
  const peer = await import('@jridgewell/trace-mapping');
  const json = new Uint8Array(await (await fetch(`${path}.map`)).arrayBuffer());
  const text = utf8.decode(json);
  const bytes = new Uint8Array(await (await fetch(`${path}.smc`)).arrayBuffer());
  // the module is loaded once, before
  const map = await CompiledMap.load(bytes);
  const tracer = new peer.TraceMap(text);
  const room = new Uint8Array(bytes.length);
  const opening = await compared({
    'load bytes, one answer': elapsed(() => answerOnce(bytes)),
    'of which the copy': elapsed(() => room.set(bytes)),
    'open a buffer that is given up': () => afterTransfer(bytes, false),
    'the same, one answer': () => afterTransfer(bytes, true),
    'load a stream, one answer, from its end': () => afterStream(bytes),
    'new TraceMap of a text': elapsed(() => new peer.TraceMap(text)),
    'new TraceMap of bytes': elapsed(() => new peer.TraceMap(utf8.decode(json))),
  }, Math.ceil(OPENED / bytes.length));
  const positions = drawPositions(map, LOOKUPS);
  const [ours, theirs] = [(needle) => map.originalPositionFor(needle), (needle) => peer.originalPositionFor(tracer, needle)];
  if (oneByOne(positions, SINGLE, ours) !== oneByOne(positions, SINGLE, theirs)) throw new Error('other answers');
  const lookups = await compared({
    'a million by lookupMany': elapsed(() => map.lookupMany(positions)),
    'a million by trace-mapping': elapsed(() => oneByOne(positions, LOOKUPS, theirs)),
    [`${SINGLE} one by one`]: elapsed(() => oneByOne(positions, SINGLE, ours)),
    [`${SINGLE} by trace-mapping`]: elapsed(() => oneByOne(positions, SINGLE, theirs)),
  });
  const { tokenCount } = map;
  map.close();
  return { tokens: tokenCount, bytes: bytes.length, json: json.length, ...opening, ...lookups };
}
