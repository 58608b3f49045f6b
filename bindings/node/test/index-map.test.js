'use strict';

const assert = require('node:assert/strict');
const { describe, test } = require('node:test');
const sourcemap = require('..');

const { AnyMap, FlattenMap, TraceMap, originalPositionFor } = sourcemap;

function regular(source, extra = {}) {
  return { version: 3, sources: [source], names: ['n'], mappings: 'AAAAA,IAAI', ...extra };
}

function index(...sections) {
  return { version: 3, file: 'all.js', sections };
}

function section(line, column, map) {
  return { offset: { line, column }, map };
}

describe('an index map', () => {
  const map = index(
    section(0, 0, regular('a.js', { sourcesContent: ['text of a'] })),
    section(10, 4, regular('b.js', { sourceRoot: 'root', ignoreList: [0] })),
  );
  const forms = { object: map, 'JSON text': JSON.stringify(map), 'after a junk header': `)]}'\n${JSON.stringify(map)}` };

  for (const [form, input] of Object.entries(forms)) {
    test(`is flattened: ${form}`, () => {
      const flat = AnyMap(input);
      assert.ok(flat instanceof TraceMap);
      assert.deepEqual({ ...flat }, {
        version: 3,
        file: 'all.js',
        names: ['n'],
        sourceRoot: undefined,
        sources: ['a.js', 'root/b.js'],
        sourcesContent: ['text of a', null],
        ignoreList: [1],
        resolvedSources: ['a.js', 'root/b.js'],
      });
      // worked out by hand: the second section adds ten lines, and on its first line four columns
      assert.equal(sourcemap.encodedMappings(flat), 'AAAAA,IAAI;;;;;;;;;;ICAJA,IAAI');
    });
  }

  test('answers in the section that a position is in', () => {
    const flat = new FlattenMap(map);
    const at = (line, column) => originalPositionFor(flat, { line, column });
    assert.deepEqual(at(1, 4), { source: 'a.js', line: 1, column: 4, name: null });
    assert.deepEqual(at(11, 4), { source: 'root/b.js', line: 1, column: 0, name: 'n' });
    assert.deepEqual(at(11, 9), { source: 'root/b.js', line: 1, column: 4, name: null });
    assert.equal(at(11, 3).source, null);
    assert.equal(sourcemap.isIgnored(flat, 'root/b.js'), true);
    assert.equal(sourcemap.sourceContentFor(flat, 'a.js'), 'text of a');
  });

  test('has one source for equal ones', () => {
    const twice = AnyMap(index(section(0, 0, regular('a.js')), section(5, 0, regular('a.js'))));
    assert.deepEqual(twice.sources, ['a.js']);
    assert.deepEqual(sourcemap.allGeneratedPositionsFor(twice, { source: 'a.js', line: 1, column: 0 }), [
      { line: 1, column: 0 }, { line: 6, column: 0 },
    ]);
  });

  test('keeps the contents of its sources', () => {
    const first = regular('a.js', { sources: ['a.js', 'b.js', 'c.js'], sourcesContent: ['', null, 'text "of" c\n'], mappings: 'AAAA,CCAA,CCAA' });
    const flat = AnyMap(index(section(0, 0, first), section(5, 0, index(section(0, 0, regular('d.js', { sourcesContent: ['1'] }))))));
    assert.deepEqual(flat.sources, ['a.js', 'b.js', 'c.js', 'd.js']);
    assert.deepEqual(flat.sourcesContent, ['', null, 'text "of" c\n', '1']);
  });

  test('may have sections of every form', () => {
    const decoded = { ...regular('a.js'), mappings: [[[0, 0, 0, 0, 0]]] };
    const nested = index(section(0, 0, JSON.stringify(regular('c.js'))), section(1, 0, decoded));
    const flat = AnyMap(index(section(0, 0, regular('b.js')), section(3, 2, nested)), 'https://m.example/d/out.map');
    assert.deepEqual(flat.resolvedSources, ['b.js', 'c.js', 'a.js'].map((name) => `https://m.example/d/${name}`));
    assert.deepEqual([1, 4, 5].map((line) => originalPositionFor(flat, { line, column: 2 }).source), flat.resolvedSources);
  });

  test('keeps range tokens', () => {
    const range = regular('a.js', { mappings: 'AAAA', rangeMappings: 'B' });
    const flat = AnyMap(index(section(2, 3, range)));
    assert.equal(originalPositionFor(flat, { line: 3, column: 8 }).column, 5);
    assert.equal(sourcemap.encodedMap(flat).rangeMappings, ';;B');
  });

  test('without sections has no tokens', () => {
    const flat = AnyMap({ version: 3, sections: [] });
    assert.deepEqual(sourcemap.decodedMappings(flat), []);
    assert.equal(originalPositionFor(flat, { line: 1, column: 0 }).source, null);
  });

  test('may begin far down, where lines are too many to be written', () => {
    const flat = AnyMap(index(section(4294967000, 7, regular('a.js'))));
    assert.equal(originalPositionFor(flat, { line: 4294967001, column: 8 }).source, 'a.js');
    assert.equal(originalPositionFor(flat, { line: 4294967000, column: 8 }).source, null);
    assert.deepEqual(sourcemap.generatedPositionFor(flat, { source: 'a.js', line: 1, column: 0 }), {
      line: 4294967001, column: 7,
    });
    assert.throws(() => sourcemap.encodedMappings(flat), { code: 'PAST_LIMIT' });
    assert.throws(() => sourcemap.decodedMappings(flat), { code: 'PAST_LIMIT' });
  });

  test('is refused as the library refuses it', () => {
    const unresolved = { offset: { line: 0, column: 0 }, url: 'u' };
    assert.throws(() => AnyMap(index(unresolved)), { name: 'SourceMapError', code: 'CANNOT_FLATTEN' });
    const past = index(section(4294967295, 0, regular('a.js', { mappings: ';AAAA' })));
    assert.throws(() => AnyMap(past), { code: 'CANNOT_FLATTEN', message: /a position passes 4294967295/ });
    assert.throws(() => AnyMap(index({ map: regular('a.js') })), { code: 'BAD_JSON' });
    assert.throws(() => AnyMap(index(section(0, 0, regular('a.js', { mappings: 'ACAA' })))), {
      code: 'BAD_SOURCE_REFERENCE', number: 1,
    });
  });
});

test('a map that is no index map is opened as it is', () => {
  const tracer = AnyMap(regular('a.js'), 'd/out.map');
  assert.deepEqual(tracer.sources, ['a.js']);
  assert.deepEqual(tracer.resolvedSources, ['d/a.js']);
});
