'use strict';

const { native, SourceMapError } = require('./native.js');
const { TraceMap, FlattenMap, mappingsOf, lookupOf, tokensOf, checkTraceMap } = require('./trace-map.js');
const { CompiledMap, compile } = require('./compiled-map.js');
const { check } = require('./check.js');
const { NONE } = require('./mappings.js');
const {
  LEAST_UPPER_BOUND,
  checkNumber,
  checkNeedle,
  checkSource,
  checkPositions,
  checkCallback,
  checkDecoded,
} = require('./arguments.js');
const { NONE: NO_ID } = require('./tokens.js');

const GREATEST_LOWER_BOUND = 1;

/** How many numbers the answer of `originalPositionsFor` to one position has. */
const ANSWER_WORDS = 4;

function noPosition() {
  return { source: null, line: null, column: null, name: null };
}

function sourceIndex(map, source) {
  checkTraceMap(map);
  checkSource(source);
  const { sources, resolvedSources } = map;
  const index = sources.indexOf(source);
  return index === -1 ? resolvedSources.indexOf(source) : index;
}

/** The original position and the name of a token; all fields are null if it has no source. */
function originalOf(map, { originals }, index) {
  const at = 4 * index;
  const source = originals[at];
  if (source === NO_ID) return noPosition();
  const name = originals[at + 3];
  return {
    source: map.resolvedSources[source] ?? null,
    line: originals[at + 1] + 1,
    column: originals[at + 2],
    name: name === NO_ID ? null : map.names[name] ?? null,
  };
}

/** The original position of the first token of the line at the column or after it. */
function upperOriginalOf(map, line, column) {
  const tokens = tokensOf(map);
  const index = tokens.findUpper(line - 1, column);
  return index === -1 ? noPosition() : originalOf(map, tokens, index);
}

function originalPositionFor(map, needle) {
  const lookup = lookupOf(map);
  checkNeedle(needle);
  const { line, column, bias } = needle;
  if (bias === LEAST_UPPER_BOUND) return upperOriginalOf(map, line, column);
  lookup.find(line, column);
  const { source, name } = lookup;
  if (source === NO_ID) return noPosition();
  return {
    source: map.resolvedSources[source] ?? null,
    line: lookup.originalLine,
    column: lookup.originalColumn,
    name: name === NO_ID ? null : map.names[name] ?? null,
  };
}

function originalPositionsFor(map, positions) {
  const { handle } = mappingsOf(map);
  checkPositions(positions);
  const answers = new Uint32Array((positions.length >>> 1) * ANSWER_WORDS);
  native.lookupMany(handle, positions, answers);
  return answers;
}

function traceSegment(map, line, column) {
  const tokens = tokensOf(map);
  checkNumber('`line`', line);
  checkNumber('`column`', column);
  const index = tokens.find(line, column);
  return index === -1 ? null : tokens.segment(index);
}

function generatedOf(tokens, index) {
  return { line: tokens.lines[index] + 1, column: tokens.columns[index] };
}

function generatedPositionFor(map, needle) {
  const tokens = tokensOf(map);
  checkNeedle(needle);
  const { source, line, column, bias } = needle;
  const index = tokens.findBySource(sourceIndex(map, source), line - 1, column, bias === LEAST_UPPER_BOUND);
  return index === -1 ? { line: null, column: null } : generatedOf(tokens, index);
}

function allGeneratedPositionsFor(map, needle) {
  const tokens = tokensOf(map);
  checkNeedle(needle, false);
  const { source, line, bias } = needle;
  const isUpper = bias !== GREATEST_LOWER_BOUND;
  // without a column: the first token of the line is the closest one after it, and none is before it
  const { column = isUpper ? 0 : -1 } = needle;
  const found = tokens.findAllBySource(sourceIndex(map, source), line - 1, column, isUpper);
  return Array.from(found, (index) => generatedOf(tokens, index));
}

function eachMapping(map, callback) {
  const tokens = tokensOf(map);
  checkCallback(callback);
  for (let i = 0; i < tokens.length; i++) {
    const { source, line, column, name } = originalOf(map, tokens, i);
    callback({
      generatedLine: tokens.lines[i] + 1,
      generatedColumn: tokens.columns[i],
      source,
      originalLine: line,
      originalColumn: column,
      name,
    });
  }
}

function sourceContentFor(map, source) {
  const index = sourceIndex(map, source);
  return map.sourcesContent?.[index] ?? null;
}

function isIgnored(map, source) {
  const index = sourceIndex(map, source);
  return index !== -1 && (map.ignoreList?.includes(index) ?? false);
}

function decodedMappings(map) {
  return mappingsOf(map).decodedLines;
}

function encodedMappings(map) {
  return mappingsOf(map).encodedFields.mappings;
}

function withMappings(map, mappings) {
  const { version, file, names, sourceRoot, sources, sourcesContent, ignoreList } = map;
  return { version, file, names, sourceRoot, sources, sourcesContent, ...mappings, ignoreList };
}

function decodedMap(map) {
  return withMappings(map, { mappings: decodedMappings(map) });
}

function encodedMap(map) {
  const { mappings, rangeMappings } = mappingsOf(map).encodedFields;
  return withMappings(map, rangeMappings === undefined ? { mappings } : { mappings, rangeMappings });
}

function presortedDecodedMap(map, mapUrl) {
  const tracer = new TraceMap(map, mapUrl);
  checkDecoded(map.mappings);
  mappingsOf(tracer).decodedLines = map.mappings;
  return tracer;
}

module.exports = {
  TraceMap,
  FlattenMap,
  AnyMap: FlattenMap,
  CompiledMap,
  SourceMapError,
  LEAST_UPPER_BOUND,
  GREATEST_LOWER_BOUND,
  NONE,
  originalPositionFor,
  originalPositionsFor,
  generatedPositionFor,
  allGeneratedPositionsFor,
  traceSegment,
  eachMapping,
  sourceContentFor,
  isIgnored,
  decodedMappings,
  encodedMappings,
  decodedMap,
  encodedMap,
  presortedDecodedMap,
  compile,
  check,
};
