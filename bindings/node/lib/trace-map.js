'use strict';

const { types } = require('node:util');
const { native, SourceMapError } = require('./native.js');
const { checkMap, isObject, refuse } = require('./arguments.js');
const { Mappings, open } = require('./mappings.js');
const { resolver } = require('./resolve.js');

const JUNK_HEADER = /^[)\]}'][^\n]*/;

// A byte order mark is refused, as JSON.parse refuses it in a text.
const decoder = new TextDecoder('utf-8', { fatal: true, ignoreBOM: true });

/** The value of JSON, given as text or as bytes. */
function readJson(json) {
  try {
    const text = typeof json === 'string' ? json : decoder.decode(json);
    return JSON.parse(text.replace(JUNK_HEADER, ''));
  } catch (cause) {
    throw new SourceMapError('bad json: the text is not JSON', 'BAD_JSON', 0, { cause });
  }
}

function isSourceList(value) {
  return Array.isArray(value) && value.every((source) => typeof source === 'string' || source == null);
}

/** The fields of a map: those of the object, or of its JSON. */
function parse(map) {
  const fields = typeof map === 'string' || types.isUint8Array(map) ? readJson(map) : map;
  if (!isObject(fields) || !isSourceList(fields.sources ?? [])) {
    throw new SourceMapError('bad json: a field has the wrong type', 'BAD_JSON', 1);
  }
  return fields;
}

function checkMappings({ mappings, sections }) {
  if (typeof mappings === 'string' || Array.isArray(mappings)) return;
  throw new SourceMapError(sections ? 'an index map is opened by FlattenMap' : 'a map has mappings', 'INCOMPATIBLE');
}

function ignoreListOf(fields) {
  return fields.ignoreList ?? fields.x_google_ignoreList;
}

/** Throws a TypeError if `map` is no TraceMap. */
let checkTraceMap;

/** These return the mappings of a TraceMap, their lookup and their tokens. All throw a TypeError if the argument is no TraceMap. */
let mappingsOf;
let lookupOf;
let tokensOf;

class TraceMap {
  #mappings;
  #lookup = null;
  #tokens = null;

  static {
    checkTraceMap = (map) => {
      if (!isObject(map) || !(#mappings in map)) refuse('the map', 'a TraceMap of this package', map);
    };
    mappingsOf = (map) => {
      checkTraceMap(map);
      return map.#mappings;
    };
    lookupOf = (map) => {
      try {
        return (map.#lookup ??= map.#mappings.lookup);
      } catch (error) {
        checkTraceMap(map);
        throw error;
      }
    };
    tokensOf = (map) => {
      try {
        return (map.#tokens ??= map.#mappings.tokens);
      } catch (error) {
        checkTraceMap(map);
        throw error;
      }
    };
  }

  /** With a `handle`, which FlattenMap passes, `map` has no mappings. */
  constructor(map, mapUrl, handle = null) {
    if (map instanceof TraceMap) return map;
    checkMap(map, mapUrl);
    const fields = parse(map);
    if (handle === null) checkMappings(fields);
    this.version = fields.version;
    this.file = fields.file;
    this.names = fields.names ?? [];
    this.sourceRoot = fields.sourceRoot;
    this.sources = fields.sources ?? [];
    this.sourcesContent = fields.sourcesContent;
    this.ignoreList = ignoreListOf(fields);
    this.#mappings = new Mappings(handle ?? open(fields), fields);
    this.resolvedSources = this.sources.map(resolver(mapUrl, fields.sourceRoot));
  }
}

/**
 * The map for the library to flatten: in each section sources are resolved and mappings are
 * text. Contents are added to a list, and stand as their numbers in it, so that none is
 * parsed as JSON a second time.
 */
function flattenable(map, mapUrl, contents) {
  const fields = parse(map);
  if (fields.sections) {
    const sections = fields.sections.map(({ offset, url, map: inner }) => ({
      offset,
      url,
      map: inner && flattenable(inner, mapUrl, contents),
    }));
    return { version: 3, sections };
  }
  checkMappings(fields);
  const isText = typeof fields.mappings === 'string';
  const { mappings, rangeMappings } = isText ? fields : mappingsOf(new TraceMap(fields)).encodedFields;
  const { sources = [], sourceRoot, sourcesContent, names } = fields;
  return {
    version: 3,
    sources: sources.map(resolver(mapUrl, sourceRoot)),
    sourcesContent: numbered(sourcesContent, contents),
    names,
    ignoreList: ignoreListOf(fields),
    mappings,
    rangeMappings,
  };
}

/** What is no list, or no text in it, stays, for the library to refuse. */
function numbered(texts, list) {
  if (!Array.isArray(texts)) return texts;
  return texts.map((text) => (typeof text === 'string' ? `${list.push(text) - 1}` : text));
}

/** Opens a map of any kind, with or without `new`. The library flattens an index map. */
function FlattenMap(map, mapUrl) {
  if (map instanceof TraceMap) return map;
  checkMap(map, mapUrl);
  const fields = parse(map);
  if (!fields.sections) return new TraceMap(fields, mapUrl);
  const contents = [];
  const handle = native.open(JSON.stringify(flattenable(fields, mapUrl, contents)));
  const flat = {
    version: 3,
    file: fields.file,
    names: native.names(handle),
    sources: native.sources(handle),
    sourcesContent: native.contents(handle).map((number) => number && contents[number]),
    ignoreList: native.ignoreList(handle),
  };
  return new TraceMap(flat, undefined, handle);
}

module.exports = { TraceMap, FlattenMap, parse, mappingsOf, lookupOf, tokensOf, checkTraceMap };
