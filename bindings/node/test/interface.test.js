'use strict';

const assert = require('node:assert/strict');
const { describe, test } = require('node:test');
const sourcemap = require('..');

const { TraceMap, SourceMapError, LEAST_UPPER_BOUND, GREATEST_LOWER_BOUND } = sourcemap;
const { originalPositionFor, generatedPositionFor, allGeneratedPositionsFor, traceSegment } = sourcemap;

const NOWHERE = { source: null, line: null, column: null, name: null };

// the texts of @jridgewell/trace-mapping 0.3.17
const LINE_TOO_LOW = '`line` must be greater than 0 (lines start at line 1)';
const COLUMN_TOO_LOW = '`column` must be greater than or equal to 0 (columns start at column 0)';

// line 1: 0 -> a.js 1:0, 4 -> a.js 1:9 `one`, 8 without a source, 10 -> b.js 3:2
// line 2: nothing
// line 3: 2 -> a.js 1:9, 2 -> a.js 2:0 `two`, 6 -> a.js 1:9
const decoded = {
  version: 3,
  file: 'out.js',
  names: ['one', 'two'],
  sourceRoot: 'src',
  sources: ['a.js', 'b.js'],
  sourcesContent: ['text of a', null],
  mappings: [
    [[0, 0, 0, 0], [4, 0, 0, 9, 0], [8], [10, 1, 2, 2]],
    [],
    [[2, 0, 0, 9], [2, 0, 1, 0, 1], [6, 0, 0, 9]],
  ],
  ignoreList: [1],
};
// encoded by hand: each number is twice its magnitude, plus 1 if negative, in digits of five bits
const encoded = { ...decoded, mappings: 'AAAA,IAASA,I,ECEP;;EDFO,AACTC,IADS' };

const forms = {
  'decoded map': decoded,
  'encoded map': encoded,
  'JSON text': JSON.stringify(encoded),
  'JSON text of a decoded map': JSON.stringify(decoded),
  'JSON text after a junk header': `)]}'\n${JSON.stringify(encoded)}`,
  'the bytes of JSON, in a Buffer': Buffer.from(JSON.stringify(encoded)),
  'the bytes of JSON, in a Uint8Array': new TextEncoder().encode(JSON.stringify(decoded)),
  'the bytes of JSON after a junk header': Buffer.from(`)]}'\n${JSON.stringify(encoded)}`),
};

for (const [form, map] of Object.entries(forms)) {
  describe(form, () => {
    const tracer = new TraceMap(map);

    test('has the fields of the map', () => {
      const { mappings, ...fields } = decoded;
      assert.deepEqual({ ...tracer }, { ...fields, resolvedSources: ['src/a.js', 'src/b.js'] });
    });

    test('traces lines from 1 and columns from 0', () => {
      assert.deepEqual(originalPositionFor(tracer, { line: 1, column: 4 }), {
        source: 'src/a.js', line: 1, column: 9, name: 'one',
      });
      assert.deepEqual(originalPositionFor(tracer, { line: 1, column: 10 }), {
        source: 'src/b.js', line: 3, column: 2, name: null,
      });
    });

    test('finds the closest token before a column, or after it', () => {
      const at = (column, bias) => originalPositionFor(tracer, { line: 1, column, bias }).column;
      assert.equal(at(3), 0);
      assert.equal(at(3, GREATEST_LOWER_BOUND), 0);
      assert.equal(at(3, LEAST_UPPER_BOUND), 9);
      assert.equal(at(9, LEAST_UPPER_BOUND), 2);
      assert.equal(at(11, LEAST_UPPER_BOUND), null);
      assert.equal(at(Infinity), 2);
    });

    test('finds the first of several tokens at a column, or the last', () => {
      const name = (bias) => originalPositionFor(tracer, { line: 3, column: 2, bias }).name;
      assert.equal(name(GREATEST_LOWER_BOUND), null);
      assert.equal(name(LEAST_UPPER_BOUND), 'two');
      assert.deepEqual(originalPositionFor(tracer, { line: 3, column: 3 }), {
        source: 'src/a.js', line: 2, column: 0, name: 'two',
      });
    });

    test('stays on the line', () => {
      assert.deepEqual(originalPositionFor(tracer, { line: 2, column: 5 }), NOWHERE);
      assert.deepEqual(originalPositionFor(tracer, { line: 2, column: 5, bias: LEAST_UPPER_BOUND }), NOWHERE);
      assert.deepEqual(originalPositionFor(tracer, { line: 3, column: 1 }), NOWHERE);
      assert.deepEqual(originalPositionFor(tracer, { line: 4, column: 0 }), NOWHERE);
      assert.deepEqual(originalPositionFor(tracer, { line: 4e9, column: 0 }), NOWHERE);
    });

    test('says null of a token without a source', () => {
      assert.deepEqual(originalPositionFor(tracer, { line: 1, column: 9 }), NOWHERE);
      assert.deepEqual(traceSegment(tracer, 0, 9), [8]);
    });

    test('traces segments, with lines from 0', () => {
      assert.deepEqual(traceSegment(tracer, 0, 5), [4, 0, 0, 9, 0]);
      assert.deepEqual(traceSegment(tracer, 0, 100), [10, 1, 2, 2]);
      assert.equal(traceSegment(tracer, 1, 0), null);
      assert.equal(traceSegment(tracer, 3, 0), null);
    });

    test('finds generated positions by a source as written or resolved', () => {
      const expected = { line: 1, column: 10 };
      assert.deepEqual(generatedPositionFor(tracer, { source: 'b.js', line: 3, column: 2 }), expected);
      assert.deepEqual(generatedPositionFor(tracer, { source: 'src/b.js', line: 3, column: 2 }), expected);
      assert.deepEqual(generatedPositionFor(tracer, { source: 'c.js', line: 3, column: 2 }), {
        line: null, column: null,
      });
    });

    test('finds the first generated position of a column, or the last', () => {
      const at = (column, bias) => generatedPositionFor(tracer, { source: 'a.js', line: 1, column, bias });
      assert.deepEqual(at(9), { line: 1, column: 4 });
      assert.deepEqual(at(9, LEAST_UPPER_BOUND), { line: 3, column: 6 });
      assert.deepEqual(at(5), { line: 1, column: 0 });
      assert.deepEqual(at(5, LEAST_UPPER_BOUND), { line: 1, column: 4 });
      assert.deepEqual(at(10, LEAST_UPPER_BOUND), { line: null, column: null });
    });

    test('finds all generated positions of the closest column', () => {
      const all = (column, bias) => allGeneratedPositionsFor(tracer, { source: 'a.js', line: 1, column, bias });
      const nine = [{ line: 1, column: 4 }, { line: 3, column: 2 }, { line: 3, column: 6 }];
      assert.deepEqual(all(9), nine);
      assert.deepEqual(all(5), nine);
      assert.deepEqual(all(5, GREATEST_LOWER_BOUND), [{ line: 1, column: 0 }]);
      assert.deepEqual(all(10), []);
      assert.deepEqual(all(10, GREATEST_LOWER_BOUND), nine);
      assert.deepEqual(allGeneratedPositionsFor(tracer, { source: 'c.js', line: 1, column: 9 }), []);
      // without a column: those of the first token on the line; none is before it
      const first = { source: 'a.js', line: 1 };
      assert.deepEqual(allGeneratedPositionsFor(tracer, first), [{ line: 1, column: 0 }]);
      assert.deepEqual(allGeneratedPositionsFor(tracer, { ...first, bias: GREATEST_LOWER_BOUND }), []);
    });

    test('calls back with each token in generated order', () => {
      const seen = [];
      sourcemap.eachMapping(tracer, (mapping) => seen.push(mapping));
      assert.equal(seen.length, 7);
      assert.deepEqual(seen[1], {
        generatedLine: 1, generatedColumn: 4, source: 'src/a.js', originalLine: 1, originalColumn: 9, name: 'one',
      });
      assert.deepEqual(seen[2], {
        generatedLine: 1, generatedColumn: 8, source: null, originalLine: null, originalColumn: null, name: null,
      });
      assert.deepEqual(seen.map((each) => [each.generatedLine, each.generatedColumn]), [
        [1, 0], [1, 4], [1, 8], [1, 10], [3, 2], [3, 2], [3, 6],
      ]);
    });

    test('has both forms of the mappings', () => {
      assert.equal(sourcemap.encodedMappings(tracer), encoded.mappings);
      assert.deepEqual(sourcemap.decodedMappings(tracer), decoded.mappings);
      assert.deepEqual(sourcemap.encodedMap(tracer), encoded);
      assert.deepEqual(sourcemap.decodedMap(tracer), decoded);
    });

    test('answers many positions in one call', () => {
      const positions = Uint32Array.of(1, 4, 1, 9, 2, 0, 3, 3, 9, 9);
      const { NONE } = sourcemap;
      assert.deepEqual([...sourcemap.originalPositionsFor(tracer, positions)], [
        0, 1, 9, 0, NONE, 0, 0, NONE, NONE, 0, 0, NONE, 0, 2, 0, 1, NONE, 0, 0, NONE,
      ]);
      assert.equal(sourcemap.originalPositionsFor(tracer, new Uint32Array()).length, 0);
    });

    test('has contents and the ignore list by source', () => {
      assert.equal(sourcemap.sourceContentFor(tracer, 'a.js'), 'text of a');
      assert.equal(sourcemap.sourceContentFor(tracer, 'src/a.js'), 'text of a');
      assert.equal(sourcemap.sourceContentFor(tracer, 'b.js'), null);
      assert.equal(sourcemap.sourceContentFor(tracer, 'c.js'), null);
      assert.equal(sourcemap.isIgnored(tracer, 'a.js'), false);
      assert.equal(sourcemap.isIgnored(tracer, 'src/b.js'), true);
      assert.equal(sourcemap.isIgnored(tracer, 'c.js'), false);
    });

    test('refuses positions before the first', () => {
      const calls = [originalPositionFor, generatedPositionFor, allGeneratedPositionsFor];
      for (const call of calls) {
        const ask = (line, column) => () => call(tracer, { source: 'a.js', line, column });
        assert.throws(ask(0, 0), { name: 'SourceMapError', code: 'BAD_POSITION', message: LINE_TOO_LOW });
        assert.throws(ask(1, -1), { name: 'SourceMapError', code: 'BAD_POSITION', message: COLUMN_TOO_LOW });
      }
      assert.throws(() => sourcemap.originalPositionsFor(tracer, Uint32Array.of(1, 0, 0, 0)), { code: 'BAD_POSITION' });
    });
  });
}

describe('TraceMap', () => {
  test('of a TraceMap is that one', () => {
    const tracer = new TraceMap(encoded);
    assert.equal(new TraceMap(tracer), tracer);
    assert.equal(sourcemap.AnyMap(tracer), tracer);
  });

  test('keeps null sources, and asks for nothing that may be left out', () => {
    const tracer = new TraceMap({ version: 3, sources: [null], names: [], mappings: 'AAAA' });
    assert.deepEqual(tracer.sources, [null]);
    assert.equal(originalPositionFor(tracer, { line: 1, column: 0 }).source, '');
    assert.equal(sourcemap.sourceContentFor(tracer, ''), null);
    assert.equal(sourcemap.isIgnored(tracer, ''), false);
    const bare = new TraceMap({ mappings: 'A' });
    assert.deepEqual([bare.version, bare.sources, bare.names], [undefined, [], []]);
    assert.deepEqual(sourcemap.decodedMappings(bare), [[[0]]]);
  });

  test('reads the ignore list under its old name', () => {
    const tracer = new TraceMap({ version: 3, sources: ['a.js'], names: [], mappings: '', x_google_ignoreList: [0] });
    assert.deepEqual(tracer.ignoreList, [0]);
    assert.equal(sourcemap.isIgnored(tracer, 'a.js'), true);
  });

  test('sorts the segments of a line, and leaves the input as it was', () => {
    const mappings = [[[5, 0, 1, 0], [2, 0, 0, 0]]];
    const tracer = new TraceMap({ version: 3, sources: ['a.js'], names: [], mappings });
    assert.deepEqual(traceSegment(tracer, 0, 3), [2, 0, 0, 0]);
    assert.deepEqual(sourcemap.decodedMappings(tracer), [[[2, 0, 0, 0], [5, 0, 1, 0]]]);
    assert.deepEqual(mappings, [[[5, 0, 1, 0], [2, 0, 0, 0]]]);
    assert.equal(sourcemap.encodedMappings(tracer), 'EAAA,GACA');
  });

  test('keeps decoded mappings that are in order', () => {
    assert.equal(sourcemap.decodedMappings(new TraceMap(decoded)), decoded.mappings);
    const mappings = [[[5], [2]]];
    const map = { version: 3, sources: [], names: [], mappings };
    assert.equal(sourcemap.decodedMappings(sourcemap.presortedDecodedMap(map)), mappings);
  });

  test('keeps lines without tokens at the end', () => {
    const last = { version: 3, sources: [], names: [], mappings: 'A;;' };
    assert.deepEqual(sourcemap.decodedMappings(new TraceMap(last)), [[[0]], [], []]);
    assert.equal(sourcemap.encodedMappings(new TraceMap({ ...last, mappings: [[[0]], [], []] })), 'A;;');
    assert.equal(sourcemap.encodedMappings(new TraceMap({ ...last, mappings: [[], [], []] })), ';;');
    assert.equal(sourcemap.encodedMappings(new TraceMap({ ...last, mappings: [] })), '');
    assert.deepEqual(sourcemap.decodedMappings(new TraceMap({ ...last, mappings: '' })), [[]]);
  });

  test('keeps equal sources and names apart', () => {
    const mappings = [[[0, 0, 0, 0, 0], [1, 1, 0, 0, 1]]];
    const tracer = new TraceMap({ version: 3, sources: ['a.js', 'a.js'], names: ['n', 'n'], mappings });
    assert.deepEqual(traceSegment(tracer, 0, 1), [1, 1, 0, 0, 1]);
    assert.equal(sourcemap.encodedMappings(tracer), 'AAAAA,CCAAC');
  });

  test('is resolved against the URL of the map', () => {
    const sources = ['a.js', '../b.js', '/c.js', 'https://other.example/d.js', null];
    const map = { version: 3, names: [], sources, mappings: 'AAAA' };
    const resolve = (url, sourceRoot) => new TraceMap({ ...map, sourceRoot }, url).resolvedSources;
    assert.deepEqual(resolve('https://one.example/js/out.js.map'), [
      'https://one.example/js/a.js', 'https://one.example/b.js', 'https://one.example/c.js',
      'https://other.example/d.js', 'https://one.example/js/',
    ]);
    assert.deepEqual(resolve('js/out.js.map', 'src'), [
      'js/src/a.js', 'js/b.js', '/c.js', 'https://other.example/d.js', 'js/src/',
    ]);
    assert.deepEqual(resolve(null, undefined), ['a.js', '../b.js', '/c.js', 'https://other.example/d.js', '']);
  });
});

describe('bytes', () => {
  const map = { version: 3, sources: ['ä.js'], names: ['\u{1f600}'], mappings: 'AAAAA' };

  test('are UTF-8, in an array that may begin anywhere in its buffer', () => {
    const bytes = Buffer.from(`--${JSON.stringify(map)}--`);
    const tracer = new TraceMap(new Uint8Array(bytes.buffer, bytes.byteOffset + 2, bytes.length - 4));
    assert.deepEqual(originalPositionFor(tracer, { line: 1, column: 0 }), {
      source: 'ä.js', line: 1, column: 0, name: '\u{1f600}',
    });
  });

  test('of an index map are opened by FlattenMap', () => {
    const index = { version: 3, sections: [{ offset: { line: 1, column: 0 }, map }] };
    const flat = sourcemap.FlattenMap(Buffer.from(JSON.stringify(index)), 'd/out.map');
    assert.equal(originalPositionFor(flat, { line: 2, column: 0 }).source, 'd/ä.js');
    assert.throws(() => new TraceMap(Buffer.from(JSON.stringify(index))), { code: 'INCOMPATIBLE' });
  });

  test('that are no JSON in UTF-8 are refused as such a text is', () => {
    const noText = Buffer.from(JSON.stringify(map), 'latin1');
    const byteOrderMark = Buffer.from(`\ufeff${JSON.stringify(map)}`);
    for (const bytes of [noText, byteOrderMark, Buffer.from('{'), new Uint8Array()]) {
      assert.throws(() => new TraceMap(bytes), { name: 'SourceMapError', code: 'BAD_JSON', number: 0 });
    }
  });
});

describe('range tokens', () => {
  const tracer = new TraceMap({ version: 3, sources: ['a.js'], names: [], mappings: 'AAAO,SAAS', rangeMappings: 'B' });
  const at = (column, bias) => originalPositionFor(tracer, { line: 1, column, bias }).column;

  test('move the original column along, up to the next token', () => {
    assert.deepEqual([0, 5, 8, 9, 12].map((column) => at(column)), [7, 12, 15, 16, 16]);
    assert.equal(at(0, LEAST_UPPER_BOUND), 7);
    assert.equal(at(1, LEAST_UPPER_BOUND), 16);
    assert.deepEqual([...sourcemap.originalPositionsFor(tracer, Uint32Array.of(1, 5))], [0, 1, 12, sourcemap.NONE]);
  });

  test('end at the last column that a number of 32 bits has', () => {
    const one = new TraceMap({ version: 3, sources: ['a.js'], names: [], mappings: 'AAAO', rangeMappings: 'B' });
    assert.equal(originalPositionFor(one, { line: 1, column: Infinity }).column, 0xffffffff);
    assert.equal(originalPositionFor(one, { line: 1, column: 2 ** 33 }).column, 0xffffffff);
  });

  test('are written', () => {
    assert.equal(sourcemap.encodedMap(tracer).rangeMappings, 'B');
    assert.deepEqual(traceSegment(tracer, 0, 5), [0, 0, 0, 7]);
  });
});

describe('what is refused', () => {
  const map = { version: 3, sources: ['a.js'], names: [], mappings: '' };
  // the messages of the library, but for the last five
  const rows = [
    ['a source that does not exist', { ...map, mappings: 'ACAA' }, 'BAD_SOURCE_REFERENCE', 1, 'bad reference to source #1'],
    ['a name that does not exist', { ...map, mappings: 'AAAAE' }, 'BAD_NAME_REFERENCE', 2, 'bad reference to name #2'],
    ['a segment of six numbers', { ...map, mappings: 'AAAAAA' }, 'BAD_SEGMENT_SIZE', 6, /^got 6 segments/],
    ['no digit', { ...map, mappings: 'A!' }, 'INVALID_BASE64', 33, 'invalid base64 character: !'],
    ['a number that does not end', { ...map, mappings: 'g' }, 'VLQ_LEFTOVER', 0, /leftover/],
    ['a number that is too large', { ...map, mappings: 'ggggggggggggI' }, 'VLQ_OVERFLOW', 0, /overflow/],
    ['names that are no list', { ...map, names: 5 }, 'BAD_JSON', 1, /wrong type/],
    ['sources that are no texts', { ...map, sources: [5] }, 'BAD_JSON', 1, /wrong type/],
    ['no object', '[', 'BAD_JSON', 0, /not JSON/],
    ['null', 'null', 'BAD_JSON', 1, /wrong type/],
    ['an index map', { version: 3, sections: [] }, 'INCOMPATIBLE', 0, /FlattenMap/],
    ['no mappings', { version: 3, sources: [], names: [] }, 'INCOMPATIBLE', 0, /mappings/],
    ['a segment of two numbers', { ...map, mappings: [[[0, 0]]] }, 'BAD_SEGMENT_SIZE', 2, /\[0,0\]/],
    ['a negative column', { ...map, mappings: [[[-1]]] }, 'BAD_SEGMENT_SIZE', 1, /\[-1\]/],
  ];
  for (const [what, input, code, number, message] of rows) {
    test(what, () => {
      assert.throws(() => new TraceMap(input), (error) => {
        assert.ok(error instanceof SourceMapError && error instanceof Error);
        assert.deepEqual([error.name, error.code, error.number], ['SourceMapError', code, number]);
        assert.match(error.message, message instanceof RegExp ? message : new RegExp(`^${message}$`));
        return true;
      });
    });
  }

});

describe('an argument of the wrong type', () => {
  const tracer = new TraceMap(encoded);
  const needle = { source: 'a.js', line: 1, column: 0 };

  /** Asserts that a call throws a TypeError with this text, which names the argument. */
  function refuses(call, message) {
    assert.throws(call, (error) => {
      assert.ok(error instanceof TypeError);
      assert.equal(error.message, message);
      return true;
    });
  }

  const calls = {
    originalPositionFor: [needle],
    originalPositionsFor: [new Uint32Array(2)],
    generatedPositionFor: [needle],
    allGeneratedPositionsFor: [needle],
    traceSegment: [0, 0],
    eachMapping: [() => {}],
    sourceContentFor: ['a.js'],
    isIgnored: ['a.js'],
    decodedMappings: [],
    encodedMappings: [],
    decodedMap: [],
    encodedMap: [],
  };
  const noMaps = [[undefined, 'undefined'], [null, 'null'], [{ ...encoded }, '[Object]'], ['AAAA', "'AAAA'"]];
  for (const [name, rest] of Object.entries(calls)) {
    test(`is named by ${name}: no TraceMap`, () => {
      for (const [map, printed] of noMaps) {
        refuses(() => sourcemap[name](map, ...rest), `the map must be a TraceMap of this package, not ${printed}`);
      }
    });
  }

  for (const name of ['originalPositionFor', 'generatedPositionFor', 'allGeneratedPositionsFor']) {
    test(`is named by ${name}: a position`, () => {
      const ask = (fields) => () => sourcemap[name](tracer, { ...needle, ...fields });
      for (const [position, printed] of [[undefined, 'undefined'], [null, 'null'], [1, '1'], ['1:0', "'1:0'"]]) {
        refuses(() => sourcemap[name](tracer, position),
          `the position must be an object with \`line\` and \`column\`, not ${printed}`);
      }
      refuses(() => sourcemap[name](tracer, {}), '`line` must be a number, not undefined');
      refuses(ask({ line: '1' }), "`line` must be a number, not '1'");
      refuses(ask({ line: NaN }), '`line` must be a number, not NaN');
      refuses(ask({ line: 1n }), '`line` must be a number, not 1n');
      if (name !== 'allGeneratedPositionsFor') {
        refuses(ask({ column: undefined }), '`column` must be a number, not undefined');
      }
      refuses(ask({ column: null }), '`column` must be a number, not null');
      refuses(ask({ column: [3] }), '`column` must be a number, not [Array]');
      refuses(ask({ bias: 'upper' }), "`bias` must be a number, not 'upper'");
      assert.deepEqual(ask({ bias: null })(), ask({})());
    });
  }

  test('is named: a source', () => {
    const text = '`source` must be a string, not undefined';
    refuses(() => generatedPositionFor(tracer, { line: 1, column: 0 }), text);
    refuses(() => allGeneratedPositionsFor(tracer, { line: 1, column: 0 }), text);
    refuses(() => sourcemap.sourceContentFor(tracer), text);
    refuses(() => sourcemap.isIgnored(tracer, 0), '`source` must be a string, not 0');
  });

  test('is named: lines, columns, positions and a callback', () => {
    refuses(() => traceSegment(tracer, '0', 0), "`line` must be a number, not '0'");
    refuses(() => traceSegment(tracer, 0), '`column` must be a number, not undefined');
    refuses(() => sourcemap.originalPositionsFor(tracer, [1, 0]), 'the positions must be a Uint32Array, not [Array]');
    refuses(() => sourcemap.originalPositionsFor(tracer), 'the positions must be a Uint32Array, not undefined');
    refuses(() => sourcemap.eachMapping(tracer), 'the callback must be a function, not undefined');
  });

  test('is named: a map that is to be opened, its URL and its mappings', () => {
    for (const open of [(...words) => new TraceMap(...words), sourcemap.AnyMap, sourcemap.presortedDecodedMap]) {
      for (const [map, printed] of [[undefined, 'undefined'], [null, 'null'], [3, '3']]) {
        refuses(() => open(map), `the map must be an object, JSON text or the bytes of that, not ${printed}`);
      }
      refuses(() => open(decoded, 7), '`mapUrl` must be a string, not 7');
    }
    refuses(() => sourcemap.presortedDecodedMap(tracer), '`mappings` must be an array of lines, not undefined');
    assert.equal(originalPositionFor(tracer, { line: 1, column: 4 }).name, 'one');
  });
});
