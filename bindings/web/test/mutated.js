/**
 * node mutated.js CASES SEED FILE..: damages compiled maps, and compares what the module says of them with a second
 * reading of the bytes. Each case damages one of the files by one to three changes, and depends on the seed and its
 * number alone. A sound map stays open beside them and must go on to answer. Prints how many cases ended how, then
 * `N passed, M failed`, and the status is 1 if M is not 0.
 */
import { readFileSync } from 'node:fs';
import { CompiledMap } from '../out/sourcemap.js';
import { Format, NONE, found } from './format.js';
import { Random } from './random.js';

const LOOKUPS = 8;
const IDS = 4;
const MOST_FAILURES = 20;

/** Offsets of numbers of the header, and of those of the tables. */
function fieldsOf(bytes) {
  const format = new Format(bytes);
  const fields = [0, 4, 8, 12, 16, 20, 24, 28, 48, 52];
  const tables = [format.starts, format.heads, format.table, format.table + 4 * (format.texts + 1)];
  return { fields, tables };
}

const EDGES = [0, 1, 2, 63, 64, 65, 127, 255, 256, 0x7fffffff, 0x80000000, NONE];

const CHANGES = {
  bit(bytes, random) {
    bytes[random.below(bytes.length)] ^= 1 << random.below(8);
    return bytes;
  },
  byte(bytes, random) {
    bytes[random.below(bytes.length)] = random.below(256);
    return bytes;
  },
  field(bytes, random, { fields }) {
    const at = random.pick(fields);
    if (at + 4 <= bytes.length) writeWord(bytes, at, random);
    return bytes;
  },
  table(bytes, random, { tables }) {
    const span = tables[3] - tables[0];
    const at = tables[0] + 4 * random.below(Math.max(Math.floor(span / 4), 1));
    if (at + 4 <= bytes.length) writeWord(bytes, at, random);
    return bytes;
  },
  width(bytes, random, { tables }) {
    const heads = Math.floor((tables[2] - tables[1]) / 32);
    if (heads === 0) return bytes;
    const at = tables[1] + 32 * random.below(heads) + 24 + random.below(8);
    if (at < bytes.length) bytes[at] = random.below(256);
    return bytes;
  },
  cut(bytes, random) {
    return bytes.slice(0, random.below(bytes.length + 1));
  },
  cutAndSaid(bytes, random) {
    const shorter = bytes.slice(0, random.below(bytes.length + 1));
    if (shorter.length >= 12) new DataView(shorter.buffer).setUint32(8, shorter.length, true);
    return shorter;
  },
  longer(bytes, random) {
    const longer = new Uint8Array(bytes.length + 1 + random.below(64));
    longer.set(bytes);
    if (random.below(2) === 0 && longer.length >= 12) new DataView(longer.buffer).setUint32(8, longer.length, true);
    return longer;
  },
};

/** A number at an edge, or one near the number that is there. */
function writeWord(bytes, at, random) {
  const view = new DataView(bytes.buffer);
  const near = view.getUint32(at, true) + random.below(9) - 4;
  view.setUint32(at, random.below(2) === 0 ? random.pick(EDGES) : near, true);
}

function damaged(original, random) {
  const places = fieldsOf(original);
  let bytes = original.slice();
  const changes = Object.values(CHANGES);
  for (let left = 1 + random.below(3); left > 0 && bytes.length > 0; left -= 1) {
    bytes = random.pick(changes)(bytes, random, places);
  }
  return bytes;
}

/** What a call says: its value, or the code of its error. Any error without a code of this package is a failure. */
function said(call) {
  try {
    return call();
  } catch (error) {
    if (!/^(COMPILED_\w+|UTF8)$/.test(error.code ?? '')) throw error;
    return { error: error.code };
  }
}

function same(a, b) {
  return a === b || (a !== null && b !== null && a?.error !== undefined && a.error === b?.error);
}

class Case {
  constructor(format, map, random) {
    Object.assign(this, { format, map, random, faults: [] });
  }

  expect(holds, fault) {
    if (!holds) this.faults.push(fault);
  }

  run() {
    const { format, map } = this;
    this.verdict = format.fault();
    this.expect(same(said(() => map.verify() ?? null), this.verdict && { error: this.verdict }), 'verify');
    this.expect(map.tokenCount === format.tokenCount && map.sourceCount === format.sources
      && map.nameCount === format.names, 'counts');
    this.expect((map.debugId?.replaceAll('-', '') ?? null) === format.debugId(), 'debug id');
    this.expect(same(said(() => map.file), format.text(format.file)), 'file');
    for (let i = 0; i < IDS; i += 1) this.checkTexts();
    for (let i = 0; i < IDS; i += 1) this.checkToken(this.id(format.tokenCount));
    const positions = Array.from({ length: LOOKUPS }, () => this.position());
    const tokens = map.closestTokens(Uint32Array.from(positions.flat()));
    const answers = map.lookupMany(Uint32Array.from(positions.flatMap(([line, column]) => [line + 1, column])));
    positions.forEach((position, i) => {
      this.checkLookup(position, [...tokens.subarray(8 * i, 8 * i + 8)], [...answers.subarray(4 * i, 4 * i + 4)]);
    });
    return this.faults[0] ?? null;
  }

  id(count) {
    return this.random.below(3) === 0 ? this.random.pick([0, count, count + 1, NONE]) % 2 ** 32 : this.random.below(count + 2);
  }

  checkTexts() {
    const { format, map } = this;
    const [source, name, content] = [format.sources, format.names, format.contents].map((count) => this.id(count));
    this.expect(same(said(() => map.source(source)), format.source(source)), `source ${source}`);
    this.expect(same(said(() => map.name(name)), format.name(name)), `name ${name}`);
    this.expect(same(said(() => map.sourceContent(content)), format.content(content)), `content ${content}`);
  }

  checkToken(index) {
    const { format, map } = this;
    const words = map.token(index);
    const wanted = index < format.tokenCount ? format.token(index).words : null;
    this.expect(words === null ? wanted === null : wanted !== null && wanted.every((word, i) => word === words[i]), `token ${index}`);
  }

  position() {
    const all = this.format.tokens();
    if (all.length === 0 || this.random.below(4) === 0) {
      return [this.random.pick([0, 1, 2, this.random.below(50), NONE - 1]), this.random.pick([0, this.random.below(500), NONE])];
    }
    const { words } = this.random.pick(all);
    return [Math.min(words[0], NONE - 1), Math.min(Math.max(words[1] + this.random.below(3) - 1, 0), NONE)];
  }

  /** One answer of `closestTokens`, of `lookupMany`, of `originalPositionFor` and of `scopeFor` fit one token. */
  checkLookup([line, column], words, answer) {
    const { format, map } = this;
    const needle = { line: line + 1, column };
    const [scope, original] = [said(() => map.scopeFor(needle)), said(() => map.originalPositionFor(needle))];
    const fits = format.answers(line, column).some((token) => {
      const wanted = token === null ? Array(8).fill(0) : found(token.words, line, column);
      const isHere = token !== null && wanted[0] === line;
      const isMapped = isHere && wanted[4] !== NONE;
      const numbers = isMapped ? [wanted[4], (wanted[2] + 1) % 2 ** 32, wanted[3], wanted[5]] : [NONE, 0, 0, NONE];
      return wanted.every((word, i) => word === words[i]) && numbers.every((word, i) => word === answer[i])
        && same(scope, isHere ? format.scope(token.scope) : null) && this.fitsTexts(original, isMapped ? wanted : null);
    });
    this.expect(fits, `lookup ${line}:${column}`);
  }

  /** `originalPositionFor` has the texts of its token, or throws the error of one of them. */
  fitsTexts(original, words) {
    if (words === null) return original.source === null && original.line === null && original.name === null;
    const [source, name] = [this.format.source(words[4]), this.format.name(words[5])];
    if (original.error !== undefined) return original.error === source?.error || original.error === name?.error;
    return original.source === source && original.name === name && original.line === words[2] + 1
      && original.column === words[3];
  }
}

async function open(bytes) {
  try {
    return await CompiledMap.load(bytes);
  } catch (error) {
    if (!/^COMPILED_\w+$/.test(error.code ?? '')) throw error;
    return error.code;
  }
}

async function runCase(files, seed, number, counts) {
  const random = new Random(BigInt(seed) * 0x2545f4914f6cdd1dn + BigInt(number));
  const format = new Format(damaged(random.pick(files), random));
  const map = await open(format.bytes);
  const refusal = format.refusal();
  if (typeof map === 'string' || refusal !== null) {
    counts.refused += 1;
    if (map instanceof CompiledMap) map.close();
    return map === refusal ? null : `load: ${map}, not ${refusal}`;
  }
  const one = new Case(format, map, random);
  const fault = one.run();
  counts[one.verdict === null ? 'sound' : 'damaged'] += 1;
  map.close();
  return fault;
}

async function main([cases, seed, ...paths]) {
  const files = paths.map((path) => new Uint8Array(readFileSync(path)));
  const beside = await CompiledMap.load(files[0]);
  const positions = Uint32Array.from({ length: 64 }, (_, i) => (i % 2 === 0 ? 1 : i));
  const wanted = beside.lookupMany(positions).join();
  const counts = { refused: 0, sound: 0, damaged: 0 };
  let failed = 0;
  for (let number = 0; number < Number(cases) && failed < MOST_FAILURES; number += 1) {
    let fault;
    try {
      fault = await runCase(files, seed, number, counts);
    } catch (error) {
      fault = `${error.code ?? ''} ${error.stack}`;
    }
    if (fault === null && beside.lookupMany(positions).join() !== wanted) fault = 'the map beside it answers differently';
    if (fault === null) continue;
    failed += 1;
    console.log(`case ${number}: ${fault}`);
  }
  console.log(`${counts.refused} refused, ${counts.damaged} opened with a fault, ${counts.sound} sound`);
  console.log(`${counts.refused + counts.damaged + counts.sound - failed} passed, ${failed} failed`);
  process.exitCode = failed > 0 || counts.damaged === 0 ? 1 : 0;
}

await main(process.argv.slice(2));
