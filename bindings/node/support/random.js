'use strict';

/** Pseudorandom numbers, the same in each run. */
class Random {
  #state;

  constructor(seed) {
    this.#state = seed >>> 0;
  }

  /** A number from 0 to `limit` - 1. */
  below(limit) {
    this.#state = (Math.imul(this.#state, 1664525) + 1013904223) >>> 0;
    return Math.floor((this.#state / 2 ** 32) * limit);
  }

  pick(items) {
    return items[this.below(items.length)];
  }

  list(length, make) {
    return Array.from({ length }, (_, i) => make(i));
  }
}

function randomSegment(random, column, sources, names) {
  if (random.below(5) === 0) return [column];
  const segment = [column, random.below(sources), random.below(4), random.below(6)];
  if (names > 0 && random.below(2) === 0) segment.push(random.below(names));
  return segment;
}

function randomLine(random, sources, names) {
  let column = 0;
  return random.list(random.below(7), () => {
    column += random.below(4);
    return randomSegment(random, column, sources, names);
  });
}

/** A small decoded map with few positions, so that tokens share them. */
function randomMap(random) {
  const sources = random.list(1 + random.below(3), () =>
    random.pick([null, 'x.js', 'x.js', 'y/../z.js', '/abs.js', 'http://q.example/a.js']));
  const names = random.list(random.below(3), () => `n${random.below(2)}`);
  return {
    version: 3,
    file: random.pick([undefined, 'out.js']),
    names,
    sourceRoot: random.pick([undefined, undefined, 'root', '/abs', 'http://h.example/r/']),
    sources,
    sourcesContent: random.pick([undefined, sources.map((_, i) => random.pick([null, `contents ${i}`]))]),
    mappings: random.list(1 + random.below(6), () => randomLine(random, sources.length, names.length)),
  };
}

module.exports = { Random, randomMap };
