import assert from 'node:assert/strict';
import { spawnSync } from 'node:child_process';
import { cpSync, existsSync, mkdirSync, mkdtempSync, readFileSync, rmSync, symlinkSync, writeFileSync } from 'node:fs';
import { createRequire } from 'node:module';
import { tmpdir } from 'node:os';
import path from 'node:path';
import { test } from 'node:test';
import { fileURLToPath } from 'node:url';

const require = createRequire(import.meta.url);
const folder = path.dirname(path.dirname(fileURLToPath(import.meta.url)));

/** Calls back with a folder that has the package in node_modules, as the project of a user. */
function inUsersFolder(call) {
  const user = mkdtempSync(path.join(tmpdir(), 'sourcemap-user-'));
  try {
    mkdirSync(path.join(user, 'node_modules'));
    symlinkSync(folder, path.join(user, 'node_modules', 'furzehearth-sourcemap'));
    return call(user);
  } finally {
    rmSync(user, { recursive: true });
  }
}

function node(user, ...words) {
  const result = spawnSync(process.execPath, words, { cwd: user, encoding: 'utf8' });
  assert.equal(result.status, 0, result.stdout + result.stderr);
  return result.stdout;
}

function run(user, name, text) {
  writeFileSync(path.join(user, name), text);
  return node(user, name);
}

const WORDS = `const map = new TraceMap({ version: 3, sources: ['a.js'], names: [], mappings: 'AAAA' });
console.log(JSON.stringify(originalPositionFor(map, { line: 1, column: 5 })));`;
const ANSWER = '{"source":"a.js","line":1,"column":0,"name":null}\n';

test('is required and imported by its name', () => {
  inUsersFolder((user) => {
    assert.equal(run(user, 'a.cjs', `const { TraceMap, originalPositionFor } = require('furzehearth-sourcemap');${WORDS}`), ANSWER);
    assert.equal(run(user, 'b.mjs', `import { TraceMap, originalPositionFor } from 'furzehearth-sourcemap';${WORDS}`), ANSWER);
    assert.equal(run(user, 'c.mjs', `import { createRequire } from 'node:module';
      import * as imported from 'furzehearth-sourcemap';
      const required = createRequire(import.meta.url)('furzehearth-sourcemap');
      console.log(Object.keys(required).sort().every((key) => required[key] === imported[key]));
      console.log(Object.keys(imported).sort().join() === Object.keys(required).sort().join());`), 'true\ntrue\n');
  });
});

test('the five lines of README.md print what it says', () => {
  const text = readFileSync(path.join(folder, 'README.md'), 'utf8');
  const [, code, printed] = /\n## Five lines\n\n((?: {4}.*\n|\n)+)prints `(.*?)`/.exec(text);
  assert.equal(code.trim().split('\n').length, 5);
  inUsersFolder((user) => assert.equal(run(user, 'a.mjs', code), `${printed}\n`));
});

test('has the calls of the package that it replaces', async (t) => {
  const { peer } = require('../support/peer.js');
  if (peer === null) return t.skip('no @jridgewell/trace-mapping');
  const ours = await import('../lib/index.mjs');
  const missing = Object.keys(peer).filter((name) => typeof ours[name] !== typeof peer[name]);
  assert.deepEqual(missing, []);
});

const TYPES = `
import { TraceMap, AnyMap, FlattenMap, SourceMapError, LEAST_UPPER_BOUND } from 'furzehearth-sourcemap';
import { CompiledMap, check, compile, originalPositionFor, originalPositionsFor, encodedMap, decodedMap, allGeneratedPositionsFor } from 'furzehearth-sourcemap';
import type { Finding, Report, Mapping, SourceMap, SectionedSourceMapXInput, EncodedSourceMapXInput, DecodedSourceMapXInput } from 'furzehearth-sourcemap';
const map = new TraceMap({ version: 3, sources: ['a'], names: [], mappings: 'AAAA' } as const, null);
const found = originalPositionFor(map, { line: 1, column: 0, bias: LEAST_UPPER_BOUND });
if (found.line !== null) { const line: number = found.line; const source: string | null = found.source; }
const flat: TraceMap = AnyMap({ version: 3, sections: [{ offset: { line: 0, column: 0 }, map: encodedMap(map) }] });
const again: TraceMap = new FlattenMap(decodedMap(flat));
const words: Uint32Array = originalPositionsFor(again, new Uint32Array(2));
const lines: number[] = allGeneratedPositionsFor(again, { source: 'a', line: 1, column: 0 }).map((each) => each.line);
const first: number = allGeneratedPositionsFor(again, { source: 'a', line: 1 }).length;
const fields: SourceMap = again;
const old: EncodedSourceMapXInput = { ...encodedMap(map), x_google_ignoreList: [0] };
const inputs: [DecodedSourceMapXInput, SectionedSourceMapXInput] = [
  { ...old, mappings: [] }, { version: 3, sections: [{ offset: { line: 0, column: 0 }, map: old }] } ];
const mapping: Mapping = { source: fields.resolvedSources[0] ?? null, line: first, column: 0, name: null };
const opened: TraceMap[] = [new TraceMap(old), new TraceMap(inputs[0]), AnyMap(inputs[1])];
const bytes: TraceMap[] = [new TraceMap(new Uint8Array(0)), AnyMap(new Uint8Array(0), 'd/out.map')];
const compiled: CompiledMap = new CompiledMap(compile(map, { contents: false, mapUrl: null }));
const texts: (string | null)[] = [compiled.file, compiled.debugId, compiled.source(compiled.sourceCount), compiled.scopeFor({ line: 1, column: 0 })];
const answers: Uint32Array = compiled.originalPositionsFor(new Uint32Array(2));
const position = compiled.originalPositionFor({ line: 1, column: 0 });
if (position.line !== null) { const line: number = position.line + texts.length + answers.length; }
const report: Report = check(encodedMap(map), { generated: new Uint8Array(0), name: 'a.map', most: 3 });
const finding: Finding | undefined = check(new Uint8Array(0)).findings[0] ?? report.findings[0];
if (finding && finding.severity === 'invalid' && finding.position && 'index' in finding.position) { const index: number = finding.position.index; }
// @ts-expect-error: a report has findings
check('').length;
// @ts-expect-error: a number is no map
check(3);
// @ts-expect-error: a name is a text
check('', { name: new Uint8Array(0) });
// @ts-expect-error: a compiled map finds no token after the position
compiled.originalPositionFor({ line: 1, column: 0, bias: LEAST_UPPER_BOUND });
try { new TraceMap('') } catch (error) { if (error instanceof SourceMapError && error.code === 'BAD_JSON') { error.number } }
// @ts-expect-error: a bias is 1 or -1
originalPositionFor(map, { line: 1, column: 0, bias: 2 });
// @ts-expect-error: a position has a column
originalPositionFor(map, { line: 1 });
// @ts-expect-error: there is no such code
const code: SourceMapError['code'] = 'NONE_SUCH';
`;

test('has types that a compiler accepts', (t) => {
  const { peerFolder } = require('../support/peer.js');
  const compiler = [peerFolder, '/usr/share/nodejs'].filter(Boolean)
    .map((each) => path.join(each, 'typescript/bin/tsc')).find((each) => existsSync(each));
  if (compiler === undefined) return t.skip('no tsc: install node-typescript');
  inUsersFolder((user) => {
    for (const name of ['a.cts', 'b.mts']) writeFileSync(path.join(user, name), TYPES);
    node(user, compiler, '--noEmit', '--strict', '--target', 'es2022', '--module', 'node16', 'a.cts', 'b.mts');
  });
});

/** Calls back with a folder that has a copy of these files of the package. */
function withCopy(names, call) {
  const copy = mkdtempSync(path.join(tmpdir(), 'sourcemap-copy-'));
  try {
    for (const name of ['package.json', ...names]) cpSync(path.join(folder, name), path.join(copy, name), { recursive: true });
    return call(copy);
  } finally {
    rmSync(copy, { recursive: true });
  }
}

test('is whole without the rest of the repository', () => {
  // the module for WebAssembly is made by bindings/web/build, and may be missing
  const files = require('../package.json').files.filter((name) => !name.endsWith('.wasm') || existsSync(path.join(folder, name)));
  withCopy(files, (copy) => {
    assert.equal(run(copy, 'a.cjs', `const { TraceMap, originalPositionFor } = require('.');${WORDS}`), ANSWER);
  });
});

test('says how to build it where it is not built', () => {
  withCopy(['lib'], (copy) => {
    for (const [name, text] of [['a.cjs', "require('.')"], ['b.mjs', "import './lib/index.mjs'"]]) {
      writeFileSync(path.join(copy, name), text);
      const { status, stderr } = spawnSync(process.execPath, [name], { cwd: copy, encoding: 'utf8' });
      assert.equal(status, 1);
      assert.match(stderr, /^Error: .* is not built: at the top of the clone run bindings\/c\/build and then bindings\/node\/build$/m);
      assert.doesNotMatch(stderr, /MODULE_NOT_FOUND|Cannot find module/);
    }
  });
});

test('the build says where it looked for the library', (t) => {
  if (!existsSync(path.join(folder, 'build'))) return t.skip('a package that is installed has no build');
  const empty = mkdtempSync(path.join(tmpdir(), 'sourcemap-empty-'));
  try {
    const env = { ...process.env, SOURCEMAP_LIBRARY_DIR: empty };
    const { status, stderr } = spawnSync(path.join(folder, 'build'), { env, encoding: 'utf8' });
    assert.equal(status, 1);
    assert.equal(stderr, `bindings/node/build: no libsourcemap in ${empty}, which SOURCEMAP_LIBRARY_DIR names\n`);
  } finally {
    rmSync(empty, { recursive: true });
  }
});

test('an addon that does not load says why', () => {
  withCopy(['lib'], (copy) => {
    mkdirSync(path.join(copy, 'out'));
    writeFileSync(path.join(copy, 'out', 'sourcemap.node'), 'no library');
    writeFileSync(path.join(copy, 'a.cjs'), "require('.')");
    const { stderr } = spawnSync(process.execPath, ['a.cjs'], { cwd: copy, encoding: 'utf8' });
    assert.match(stderr, /sourcemap\.node: (file too short|invalid ELF header)/);
  });
});
