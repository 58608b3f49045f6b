/**
 * Compares a compiled map in the module with what the C library answers of it: the files that `native` writes. Runs in
 * Node and in a page.
 */
const NONE = 0xffffffff;
const STEP = 97;

/** Texts as `native` writes them: null for none. */
function* textsOf(bytes) {
  const view = new DataView(bytes.buffer, bytes.byteOffset, bytes.byteLength);
  const utf8 = new TextDecoder('utf-8', { fatal: true, ignoreBOM: true });
  for (let at = 0; at < bytes.length;) {
    const length = view.getUint32(at, true);
    at += 4;
    yield length === NONE ? null : utf8.decode(bytes.subarray(at, at + length));
    if (length !== NONE) at += length;
  }
}

function wordsOf(bytes) {
  return new Uint32Array(bytes.slice().buffer);
}

/** The answer of `lookupMany` for a token that the C library found at a position whose line counts from 0. */
function answerOf(tokens, at, line) {
  const isMapped = tokens[at + 7] === 1 && tokens[at] === line && tokens[at + 4] !== NONE;
  return isMapped ? [tokens[at + 4], (tokens[at + 2] + 1) % 2 ** 32, tokens[at + 3], tokens[at + 5]] : [NONE, 0, 0, NONE];
}

function firstDifference(a, b) {
  if (a.length !== b.length) return 0;
  for (let i = 0; i < a.length; i += 1) if (a[i] !== b[i]) return i;
  return -1;
}

function check(holds, what) {
  if (!holds) throw new Error(what);
}

function checkTexts(map, texts) {
  const [sources, names] = [map.sourceCount, map.nameCount];
  check(texts.length === 2 * sources + names + 1, 'the number of texts');
  texts.forEach((text, i) => {
    const id = i - (i < sources ? 0 : i < sources + names ? sources : sources + names);
    const kind = i < sources ? 'source' : i < sources + names ? 'name' : 'sourceContent';
    const said = i === texts.length - 1 ? map.file : map[kind](id);
    check(said === text, `text ${i}`);
  });
  check(map.sources.every((source, id) => source === texts[id]), 'sources');
  check(map.names.every((name, id) => name === texts[sources + id]), 'names');
}

/** `originalPositionFor` says in words what `lookupMany` says in numbers. */
function checkOne(map, line, column, answer, texts) {
  const said = map.originalPositionFor({ line, column });
  const [source, originalLine, originalColumn, name] = answer;
  const wanted = source === NONE ? [null, null, null, null]
    : [texts[source] ?? null, originalLine, originalColumn, name === NONE ? null : texts[map.sourceCount + name] ?? null];
  check([said.source, said.line, said.column, said.name].every((value, i) => value === wanted[i]), `${line}:${column}`);
}

/** The tokens that a walk finds: those at whose position a lookup finds a token that begins there, each once. */
function checkWalk(map, positions, tokens) {
  const starts = new Map();
  for (let i = 0; i < positions.length / 2; i += 1) {
    const at = 8 * i;
    if (tokens[at + 7] === 1 && tokens[at] === positions[2 * i] && tokens[at + 1] === positions[2 * i + 1]) {
      starts.set(tokens[at] * 2 ** 32 + tokens[at + 1], at);
    }
  }
  const sorted = [...starts.keys()].sort((a, b) => a - b);
  const walked = new Uint32Array(8 * 1000);
  let [line, column, count] = [0, 0, 0];
  for (let found = 1000; found === 1000;) {
    found = map.tokensFrom(line, column, walked);
    for (let i = 0; i < found; i += 1) {
      const at = starts.get(sorted[count]);
      for (let word = 0; word < 8; word += 1) check(walked[8 * i + word] === tokens[at + word], `token ${count} of the walk`);
      count += 1;
    }
    if (found > 0) [line, column] = [walked[8 * found - 8], walked[8 * found - 7] + 1];
  }
  check(count === sorted.length, `${count} tokens in the walk, of ${sorted.length}`);
}

/**
 * Compares all answers, and returns how many positions there were. `read` returns the bytes of the file with this end.
 * The walk is compared if there are no more positions than `mostWalked`, since it needs memory for them.
 */
export async function compare(CompiledMap, read, mostWalked = 300000) {
  const positions = wordsOf(await read('positions'));
  const tokens = wordsOf(await read('tokens'));
  const texts = [...textsOf(await read('texts'))];
  const map = await CompiledMap.load(await read('smc'));
  map.verify();
  checkTexts(map, texts);
  const different = firstDifference(map.closestTokens(positions), tokens);
  check(different === -1, `closestTokens: number ${different}`);
  const all = wordsOf(await read('all'));
  const indexed = new Uint32Array(8 * map.tokenCount);
  check(map.tokensAt(0, indexed) === map.tokenCount, 'tokensAt: how many');
  const other = firstDifference(indexed, all);
  check(other === -1, `tokensAt: number ${other}`);
  const needles = positions.filter((_, i) => positions[i - i % 2] !== NONE);
  for (let i = 0; i < needles.length; i += 2) needles[i] += 1;
  const answers = map.lookupMany(needles);
  for (let i = 0, k = 0; i < positions.length; i += 2) {
    if (positions[i] === NONE) continue;
    const answer = answerOf(tokens, 4 * i, positions[i]);
    for (let word = 0; word < 4; word += 1) check(answers[k + word] === answer[word], `lookupMany: ${positions[i]}:${positions[i + 1]}`);
    if (k / 4 % STEP === 0) checkOne(map, positions[i] + 1, positions[i + 1], answer, texts);
    k += 4;
  }
  if (positions.length / 2 <= mostWalked) checkWalk(map, positions, tokens);
  map.close();
  return positions.length / 2;
}
