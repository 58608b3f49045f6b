import assert from 'node:assert/strict';
import { spawnSync } from 'node:child_process';
import { existsSync, mkdirSync, mkdtempSync, readdirSync, readFileSync, rmSync, symlinkSync, writeFileSync } from 'node:fs';
import { createRequire } from 'node:module';
import { tmpdir } from 'node:os';
import path from 'node:path';
import { after, test } from 'node:test';
import { fileURLToPath } from 'node:url';

// Debian's packages that load @jridgewell/trace-mapping, first with it, then with this package in its place.

const sourcemap = createRequire(import.meta.url)('..');
const folder = path.dirname(path.dirname(fileURLToPath(import.meta.url)));
const DEBIAN = '/usr/share/nodejs';
const REPLACED = '@jridgewell/trace-mapping';
const USERS = ['@ampproject/remapping', '@babel/core', '@babel/cli', '@babel/preset-env', 'ts-node', 'typescript'];

const missing = [REPLACED, ...USERS].filter((name) => !existsSync(path.join(DEBIAN, name)));
const skip = missing.length > 0 && `no ${missing.join(', ')}: bindings/install-tools node`;

const room = mkdtempSync(path.join(tmpdir(), 'sourcemap-drop-ins-'));
after(() => rmSync(room, { recursive: true }));

function* installed() {
  for (const name of readdirSync(DEBIAN)) {
    if (!name.startsWith('@')) yield name;
    else for (const each of readdirSync(path.join(DEBIAN, name))) yield `${name}/${each}`;
  }
}

/** A project with all packages of Debian, and this folder in place of trace-mapping. */
function makeProject(name, replacement) {
  const project = path.join(room, name);
  for (const each of installed()) {
    const link = path.join(project, 'node_modules', each);
    mkdirSync(path.dirname(link), { recursive: true });
    symlinkSync(each === REPLACED ? replacement : path.join(DEBIAN, each), link);
  }
  return project;
}

const projects = skip ? [] : [makeProject('theirs', path.join(DEBIAN, REPLACED)), makeProject('ours', folder)];

/** Node takes each package as a part of the project, not of the folder that a link leads to. */
const IN_PROJECT = ['--preserve-symlinks', '--preserve-symlinks-main'];

/** At its end a program writes which files of trace-mapping, or of what stands for it, it has loaded. */
const WITNESS = `process.on('exit', () => {
  const loaded = Object.keys(require.cache).filter((file) => file.includes('${REPLACED}/'));
  require('node:fs').writeFileSync('loaded', loaded.map((file) => file.split('${REPLACED}/')[1]).join());
});`;

function run(project, words) {
  writeFileSync(path.join(project, 'witness.js'), WITNESS);
  const ran = spawnSync(process.execPath, [...IN_PROJECT, '--require', './witness.js', ...words], {
    cwd: project,
    encoding: 'utf8',
    maxBuffer: 2 ** 28,
  });
  return { ...ran, loaded: readFileSync(path.join(project, 'loaded'), 'utf8') };
}

/** The results of a program in both projects, once with trace-mapping and once with this package. */
function runBoth(files, words) {
  return projects.map((project, ours) => {
    for (const [name, text] of Object.entries(files)) writeFileSync(path.join(project, name), text);
    const ran = run(project, words);
    assert.match(ran.loaded, ours ? /lib\/trace-map\.js/ : /dist\/trace-mapping\.umd\.js/);
    return ran;
  });
}

function succeeded({ status, stdout, stderr }) {
  assert.equal(status, 0, stderr);
  return stdout;
}

const SOURCE = readFileSync(path.join(folder, 'lib/tokens.js'), 'utf8');

const CHAIN = `
const ts = require('typescript');
const babel = require('@babel/core');
const remapping = require('@ampproject/remapping');
const source = require('node:fs').readFileSync('tokens.ts', 'utf8');
const compilerOptions = { sourceMap: true, target: 'ES2020', module: 'CommonJS' };
const first = ts.transpileModule(source, { compilerOptions, fileName: 'tokens.ts' });
const inputSourceMap = JSON.parse(first.sourceMapText);
const options = { filename: 'tokens.js', minified: true, sourceMaps: true, configFile: false, babelrc: false,
  presets: ['@babel/preset-env'] };
const second = babel.transformSync(first.outputText, { ...options, inputSourceMap });
const { map } = babel.transformSync(first.outputText, { ...options, inputSourceMap: false });
const chained = remapping(map, (file) => (file.endsWith('tokens.js') ? inputSourceMap : null));
const joined = remapping([map, inputSourceMap], () => null);
console.log(JSON.stringify([second.map, chained, joined]));
`;

test('remapping and Babel write the same maps', { skip }, () => {
  const [theirs, ours] = runBoth({ 'tokens.ts': SOURCE, 'chain.js': CHAIN }, ['chain.js']).map(succeeded);
  const maps = JSON.parse(ours);
  assert.ok(ours === theirs);
  for (const { sources, mappings } of maps) {
    assert.deepEqual(sources.map((source) => path.basename(source)), ['tokens.ts']);
    assert.ok(mappings.length > 1000);
  }
});

/** What a map says, but for tokens that equal the one before. */
function meaningOf(json) {
  const lines = [];
  sourcemap.eachMapping(new sourcemap.TraceMap(json), (mapping) => lines.push(JSON.stringify(mapping)));
  return lines.filter((line, i) => line !== lines[i - 1]).join('\n');
}

// the names of all files stand one after another there, and once each here
test('Babel writes maps of several files that say the same', { skip }, () => {
  const files = { 'a.js': SOURCE, 'b.js': readFileSync(path.join(folder, 'lib/mappings.js'), 'utf8') };
  const words = ['node_modules/@babel/cli/bin/babel.js', 'a.js', 'b.js', '--no-babelrc', '--out-file', 'out.js', '--source-maps'];
  runBoth(files, words).forEach(succeeded);
  const [theirs, ours] = projects.map((project) => readFileSync(path.join(project, 'out.js.map'), 'utf8'));
  assert.ok(meaningOf(ours) === meaningOf(theirs));
  assert.ok(meaningOf(ours).length > 10000);
  assert.deepEqual(JSON.parse(ours).sources, ['a.js', 'b.js']);
});

const THROWING = `interface Basket { readonly items: string[] }

export class Shop {
  constructor(private readonly baskets: Map<string, Basket>) {}

  total<T extends string>(name: T): number {
    const basket = this.baskets.get(name);
    if (!basket) throw new Error('no basket');
    return basket.items.length;
  }
}

new Shop(new Map()).total<'a'>('a');
`;

test('ts-node prints positions of TypeScript in a stack', { skip }, () => {
  const results = runBoth({ 'shop.ts': THROWING }, ['--require', 'ts-node/register/transpile-only', 'shop.ts']);
  for (const { status, stderr } of results) {
    const frames = [...stderr.matchAll(/^ +at .*shop\.ts:(\d+:\d+)\)?$/gm)].map(([, position]) => position);
    assert.equal(status, 1);
    assert.deepEqual(frames, [/throw (new Error)/, /\.(total<'a'>)/].map(positionOf));
  }
});

/** Line and column, from 1, of the text in the group of a pattern. */
function positionOf(pattern) {
  const [all, text] = pattern.exec(THROWING);
  const before = THROWING.slice(0, THROWING.indexOf(all) + all.indexOf(text)).split('\n');
  return `${before.length}:${before.at(-1).length + 1}`;
}
