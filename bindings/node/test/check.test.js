'use strict';

const assert = require('node:assert/strict');
const {
  existsSync, mkdirSync, mkdtempSync, readdirSync, readFileSync, rmSync, symlinkSync, writeFileSync,
} = require('node:fs');
const os = require('node:os');
const path = require('node:path');
const { test } = require('node:test');
const { check, SourceMapError } = require('..');

const STANDARD = path.join(__dirname, '../../../checks/spec-tests');
const EXAMPLES = path.join(__dirname, '../../../examples');

function mapOf(mappings, fields = {}) {
  return { version: 3, sources: ['a.js'], names: [], mappings, ...fields };
}

function indexOf(...maps) {
  return { version: 3, sections: maps.map((map, i) => ({ offset: { line: 10 * i, column: 0 }, map })) };
}

test('a segment', () => {
  assert.deepEqual(check(mapOf('AAAA;g')), {
    valid: false,
    invalid: 1,
    suspicious: 0,
    findings: [{
      code: 'SM132',
      severity: 'invalid',
      sections: [],
      key: 'mappings',
      position: { line: 1, index: 0 },
      sentence: 'the segment ends within a number',
    }],
  });
});

test('a key, and bytes that are no map', () => {
  const rows = [
    [mapOf('', { file: 1 }), 'SM106', 'file'],
    ['{', 'SM101', ''],
    ['[]', 'SM102', ''],
    [Buffer.of(0xff), 'SM101', ''],
    [Buffer.alloc(0), 'SM101', ''],
  ];
  for (const [map, code, key] of rows) {
    const { findings } = check(map);
    assert.deepEqual(findings.map((found) => [found.code, found.key, found.position]), [[code, key, null]]);
  }
});

test('each form of a map', () => {
  const map = mapOf('g');
  const text = JSON.stringify(map);
  for (const form of [map, text, Buffer.from(text), new TextEncoder().encode(text)]) {
    assert.equal(check(form).invalid, 1);
  }
});

test('sections at many levels', () => {
  const [first, second] = check(indexOf(mapOf('F'), indexOf(mapOf('F')))).findings;
  assert.deepEqual([first.sections, second.sections], [[0], [1, 0]]);
  let map = mapOf('F');
  for (let i = 0; i < 40; i += 1) map = indexOf(map);
  assert.deepEqual(check(map).findings[0].sections, Array(40).fill(0));
});

test('at most so many findings of each code', () => {
  const map = mapOf(Array(9).fill('g').join(','));
  for (const [most, shown] of [[1, 1], [3, 3], [20, 9], [undefined, 9]]) {
    const report = check(map, { most });
    assert.deepEqual([report.invalid, report.findings.length], [9, shown]);
  }
});

test('beside a generated text', () => {
  for (const generated of ['', 'let x;', Buffer.from('let x;'), null, undefined]) {
    assert.equal(check(mapOf('AAAA'), { generated }).valid, true);
  }
  assert.throws(() => check(mapOf('AAAA'), { generated: Buffer.of(0xff) }), (error) => error instanceof SourceMapError
    && error.code === 'UTF8');
});

test('what looks wrong in a valid map', () => {
  const rows = [
    ['K,D', undefined, 'SM221', { line: 0, index: 1 }],
    ['E', 'a', 'SM232', { line: 0, column: 2 }],
  ];
  for (const [mappings, generated, code, position] of rows) {
    const { valid, suspicious, findings } = check(mapOf(mappings, { sources: [] }), { generated });
    assert.deepEqual([valid, suspicious], [true, 1]);
    assert.deepEqual(findings.map((each) => [each.code, each.severity, each.position]), [[code, 'suspicious', position]]);
  }
});

test('the name of the file of a map', () => {
  const rows = [
    ['b.js.map', 'a.js.map', ['SM225']],
    ['a.js.map', 'a.js.map', []],
    ['maps/a.js.map?v=1', 'a.js.map', []],
    ['a%20b.js.map', 'a b.js.map', []],
    ['data:application/json;base64,e30=', 'a.js.map', []],
    ['b.js.map', null, []],
    ['b.js.map', undefined, []],
    ['b.js.map', '', []],
  ];
  const map = mapOf('', { sources: [] });
  for (const [reference, name, codes] of rows) {
    const { findings } = check(map, { generated: `x\n//# sourceMappingURL=${reference}`, name });
    assert.deepEqual(findings.map(({ code }) => code), codes, reference);
  }
  for (const generated of [undefined, 'x']) assert.deepEqual(check(map, { generated, name: 'a.js.map' }).findings, []);
});

test('the name of the file of a map, without files of sources', () => {
  const { findings } = check(mapOf('AAAA'), { generated: '//# sourceMappingURL=b.map', name: 'a.map' });
  assert.deepEqual(findings.map(({ code, key, position, sentence }) => [code, key, position, sentence]), [
    ['SM214', 'sources[0]', null, 'the map has no contents for the source'],
    ['SM225', '', null, 'the reference of the generated text ends in another file name'],
  ]);
});

test('what looks wrong in an index map', () => {
  const map = indexOf(mapOf('A', { sources: [] }), mapOf('E', { sources: [] }));
  const { findings } = check(map, { generated: ['', ...Array(9), 'a'].join('\n') });
  assert.deepEqual(findings.map(({ code, position }) => [code, position]), [['SM232', { line: 10, column: 2 }]]);
});

test('a text that has a new first line', () => {
  const map = mapOf('AAAAA;AACAC;AACAC;AACAC', { names: ['one', 'two', 'three', 'four'] });
  const { findings } = check(map, { generated: '/* */\none\ntwo\nthree\nfour\n' });
  assert.deepEqual(findings.map(({ code, key, position }) => [code, key, position]), [
    ['SM214', 'sources[0]', null],
    ['SM242', 'mappings', { lines: 1, columns: 0 }],
  ]);
});

// The codes are those that `./sourcemap check --sources` is tested to find.
function codesBeside(map, sources) {
  return check(map, { sources }).findings.map(({ code }) => code);
}

test('beside the files of sources', () => {
  const map = mapOf('AAAE', { sourceRoot: 'lib' });
  const rows = [
    [[['lib/a.js', 'x']], ['SM203']],
    [[['lib/a.js', Buffer.from('xyz')]], []],
    [[['a.js', 'x']], ['SM227']],
    [[['lib/a.js', Buffer.of(0xff)]], ['SM227']],
    [[], ['SM227']],
  ];
  for (const [files, codes] of rows) {
    assert.deepEqual(codesBeside(map, new Map(files)), codes);
    assert.deepEqual(codesBeside(indexOf(map), new Map(files)), codes);
  }
  for (const none of [undefined, null]) assert.deepEqual(codesBeside(map, none), ['SM214']);
  const other = mapOf('AAAE', { sourcesContent: ['xyz'] });
  assert.deepEqual(codesBeside(other, new Map([['a.js', 'x']])), ['SM226']);
});

test('beside a folder of sources', (t) => {
  const top = mkdtempSync(path.join(os.tmpdir(), 'check-'));
  t.after(() => rmSync(top, { recursive: true }));
  const folder = path.join(top, 'src');
  mkdirSync(path.join(folder, 'b'), { recursive: true });
  const named = (name) => mapOf('AAAA', { sources: [name] });
  for (const [bytes, codes] of [['x', []], ['', []], [Buffer.of(0xff), ['SM227']]]) {
    writeFileSync(path.join(folder, 'a'), bytes);
    writeFileSync(path.join(top, 'a'), bytes);
    assert.deepEqual(codesBeside(named('a'), folder), codes);
  }
  for (const name of ['../a', 'b/../../a', '/a', path.join(top, 'a'), 'b', 'c\0', '', 'd'.repeat(300), 'none']) {
    assert.deepEqual(codesBeside(named(name), folder), ['SM227'], name);
  }
  symlinkSync('loop', path.join(folder, 'loop'));
  assert.throws(() => codesBeside(named('loop'), folder), { code: 'ELOOP' });
  assert.throws(() => codesBeside(indexOf(named('loop')), folder), { code: 'ELOOP' });
});

test('arguments of a wrong type', () => {
  for (const map of [undefined, null, 7]) assert.throws(() => check(map), TypeError);
  for (const most of [-1, 0.5, '3', 2 ** 32]) assert.throws(() => check('{}', { most }), TypeError);
  assert.throws(() => check('{}', { generated: 7 }), TypeError);
  assert.throws(() => check('{}', { name: 7 }), TypeError);
  for (const sources of [7, {}, new Map([['a.js', 7]])]) assert.throws(() => check(mapOf(''), { sources }), TypeError);
});

test('the tests of the standard', { skip: !existsSync(STANDARD) }, () => {
  const read = (name) => readFileSync(path.join(STANDARD, name), 'utf8');
  const codes = new Map(read('codes.tsv').trimEnd().split('\n').map((row) => row.split('\t')));
  const { tests } = JSON.parse(read('source-map-spec-tests.json'));
  assert.equal(tests.length, 58);
  for (const { name, sourceMapFile, sourceMapIsValid } of tests) {
    const report = check(readFileSync(path.join(STANDARD, 'resources', sourceMapFile)));
    assert.equal(report.valid, sourceMapIsValid, name);
    const found = new Set(report.findings.filter((each) => each.severity === 'invalid').map((each) => each.code));
    assert.deepEqual(found, new Set(codes.get(name)?.split(' ')), name);
  }
});

test('real maps', () => {
  const maps = readdirSync(EXAMPLES).filter((name) => name.endsWith('.map'));
  assert.ok(maps.length > 1);
  for (const name of maps) assert.equal(check(readFileSync(path.join(EXAMPLES, name))).valid, true, name);
});
