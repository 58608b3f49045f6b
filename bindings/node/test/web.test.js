'use strict';

const assert = require('node:assert/strict');
const { execFileSync, spawnSync } = require('node:child_process');
const { cpSync, existsSync, mkdirSync, mkdtempSync, rmSync, writeFileSync } = require('node:fs');
const { tmpdir } = require('node:os');
const path = require('node:path');
const { after, before, test } = require('node:test');

const package_ = path.dirname(__dirname);
const wasm = path.join(package_, '../web/out/sourcemap.wasm');
const FLAG = '--experimental-wasm-memory64';
const MEMORY64 = Uint8Array.of(0, 0x61, 0x73, 0x6d, 1, 0, 0, 0, 5, 3, 1, 4, 0);
let folder;

/** Whether Node, started with these words, has 64-bit memories. */
function hasMemories(words) {
  const test = `process.exit(WebAssembly.validate(Uint8Array.of(${MEMORY64})) ? 0 : 1)`;
  return spawnSync(process.execPath, [...words, '-e', test]).status === 0;
}

/** Node's words for 64-bit memories, which Node 24 has without one; undefined if it has none. */
const words = [[], [FLAG]].find(hasMemories);
const why = () => {
  if (!existsSync(wasm)) return 'bindings/web/build has not made the module';
  return words === undefined && 'this node has no 64-bit memories';
};
const options = { skip: why() };

/** Runs a script over a copy of the package that has the module and no addon. */
function run(script, flags = words, before = '') {
  const output = execFileSync(process.execPath, [...flags, '-e', `
    ${before}
    const sourcemap = require(${JSON.stringify(path.join(folder, 'lib/index.js'))});
    const code = (call) => { try { return call(); } catch (error) { return error.code ?? error.message; } };
    ${script}`], { encoding: 'utf8', stdio: ['ignore', 'pipe', 'pipe'] });
  return JSON.parse(output);
}

before(() => {
  if (options.skip) return;
  folder = mkdtempSync(path.join(tmpdir(), 'package-'));
  cpSync(path.join(package_, 'lib'), path.join(folder, 'lib'), { recursive: true });
  mkdirSync(path.join(folder, 'out'));
  cpSync(wasm, path.join(folder, 'out/sourcemap.wasm'));
});

after(() => rmSync(folder ?? '', { recursive: true, force: true }));

test('without the addon, compiled maps are looked up in WebAssembly', options, async () => {
  const { ALL } = await import('../../web/test/made.js');
  writeFileSync(path.join(folder, 'all.smc'), ALL);
  const said = run(`
    const map = new sourcemap.CompiledMap(require('fs').readFileSync(${JSON.stringify(path.join(folder, 'all.smc'))}));
    map.verify();
    console.log(JSON.stringify({
      parts: [map.file, map.debugId, map.tokenCount, map.sourceCount, map.nameCount],
      texts: [map.source(1), map.source(2), map.name(0), map.sourceContent(0), map.sourceContent(1)],
      one: map.originalPositionFor({ line: 1, column: 2 }),
      none: map.originalPositionFor({ line: 1, column: 6 }),
      many: [...map.originalPositionsFor(Uint32Array.of(1, 12, 2, 0, 3, 0))],
      scopes: [4, 5, 9].map((column) => map.scopeFor({ line: 1, column })),
    }));`);
  assert.deepEqual(said, {
    parts: ['out.js', '00010203-0405-0607-0809-0a0b0c0d0e0f', 6, 2, 2],
    texts: ['src/ü😀.js', null, 'x', 'var x;\nvar y;\r\nß = 1', null],
    one: { source: 'src/a.js', line: 5, column: 1, name: 'x' },
    none: { source: null, line: null, column: null, name: null },
    many: [1, 8, 6, 0xffffffff, 0xffffffff, 0, 0, 0xffffffff, 1, 9, 0, 1],
    scopes: ['main', null, 'inner'],
  });
});

test('many positions, in more than one call of the module', options, async () => {
  const { ALL } = await import('../../web/test/made.js');
  writeFileSync(path.join(folder, 'all.smc'), ALL);
  const said = run(`
    const map = new sourcemap.CompiledMap(require('fs').readFileSync(${JSON.stringify(path.join(folder, 'all.smc'))}));
    const positions = Uint32Array.from({ length: 10000 }, (_, i) => (i % 2 === 0 ? 1 : i % 24));
    const answers = map.originalPositionsFor(positions);
    let different = 0;
    for (let i = 0; i < 5000; i += 1) {
      const { line, column } = map.originalPositionFor({ line: 1, column: positions[2 * i + 1] });
      if (answers[4 * i + 1] !== (line ?? 0) || answers[4 * i + 2] !== (column ?? 0)) different += 1;
    }
    console.log(JSON.stringify([answers.length, different, answers.filter((_, i) => i % 4 === 1 && answers[i] === 8).length > 0]));`);
  assert.deepEqual(said, [20000, 0, true]);
});

test('errors are those of the addon', options, async () => {
  const { ALL } = await import('../../web/test/made.js');
  const version = ALL.slice();
  version[4] = 9;
  writeFileSync(path.join(folder, 'version.smc'), version);
  const said = run(`
    const bytes = require('fs').readFileSync(${JSON.stringify(path.join(folder, 'version.smc'))});
    let number = null;
    try { new sourcemap.CompiledMap(bytes); } catch (error) { number = [error instanceof sourcemap.SourceMapError, error.code, error.number]; }
    console.log(JSON.stringify([number, code(() => new sourcemap.CompiledMap(Buffer.alloc(3))),
      code(() => new sourcemap.CompiledMap(Buffer.alloc(99)))]));`);
  assert.deepEqual(said, [[true, 'COMPILED_VERSION', 9], 'COMPILED_TRUNCATED', 'COMPILED_MAGIC']);
});

test('all else says that the addon is not built', options, () => {
  const map = { version: 3, sources: [], names: [], mappings: '' };
  const said = run(`
    const map = ${JSON.stringify(JSON.stringify(map))};
    console.log(JSON.stringify([code(() => sourcemap.originalPositionFor(new sourcemap.TraceMap(map), { line: 1, column: 0 })),
      code(() => sourcemap.compile(map))]));`);
  for (const message of said) assert.match(message, /is not built: .* bindings\/node\/build$/);
});

test('without 64-bit memories the package says that it is not built', options, () => {
  // where Node has them without a word, it is made to say that it has not
  const before = words.length > 0 ? '' : 'WebAssembly.validate = () => false;';
  assert.throws(() => run('console.log(1);', [], before), (error) => /is not built/.test(error.stderr));
});
