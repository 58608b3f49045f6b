/**
 * Finds the token at the position (of several the first), else the last one before
 * it on the line. The default, but for `allGeneratedPositionsFor`.
 */
export declare const GREATEST_LOWER_BOUND: 1;
/** Finds the token at the position (of several the last), else the first one after it on the line. */
export declare const LEAST_UPPER_BOUND: -1;
export type Bias = typeof GREATEST_LOWER_BOUND | typeof LEAST_UPPER_BOUND;

/** In the answers of `originalPositionsFor`, the id of a source or name that is missing. */
export declare const NONE: 0xffffffff;

/** Generated column; then source id, original line and column; then name id. All count from 0. */
export type SourceMapSegment =
  | [column: number]
  | [column: number, source: number, originalLine: number, originalColumn: number]
  | [column: number, source: number, originalLine: number, originalColumn: number, name: number];

export interface SourceMapV3 {
  version: 3;
  file?: string | null;
  names: string[];
  sourceRoot?: string;
  sources: (string | null)[];
  sourcesContent?: (string | null)[];
  ignoreList?: number[];
}

/** What a map that is passed in may have beside. */
export interface XInput {
  x_google_ignoreList?: SourceMapV3['ignoreList'];
}

export interface EncodedSourceMap extends SourceMapV3 {
  mappings: string;
  rangeMappings?: string;
}

export interface DecodedSourceMap extends SourceMapV3 {
  mappings: SourceMapSegment[][];
}

export interface Section {
  offset: { line: number; column: number };
  map: SectionedSourceMapInput;
}

export interface SectionedSourceMap {
  version: 3;
  file?: string | null;
  sections: Section[];
}

export type EncodedSourceMapXInput = EncodedSourceMap & XInput;
export type DecodedSourceMapXInput = DecodedSourceMap & XInput;
export type SectionXInput = Section;
export type SectionedSourceMapXInput = SectionedSourceMap;

type ReadonlyDeep<T> = T extends (infer Item)[]
  ? readonly ReadonlyDeep<Item>[]
  : T extends object
    ? { readonly [Key in keyof T]: ReadonlyDeep<T[Key]> }
    : T;
type Input<T> = T | ReadonlyDeep<T>;

/** A map: its JSON, as text or as UTF-8 bytes such as a Buffer; the object that JSON describes; or a TraceMap. */
export type SourceMapInput =
  | string
  | Uint8Array
  | Input<EncodedSourceMapXInput>
  | Input<DecodedSourceMapXInput>
  | TraceMap;
export type SectionedSourceMapInput = SourceMapInput | Input<SectionedSourceMap>;

/** A generated position: the line counts from 1, the column from 0. */
export interface Needle {
  line: number;
  column: number;
  bias?: Bias;
}

/**
 * An original position: the line counts from 1, the column from 0. The source is
 * one of `sources` or of `resolvedSources`. If several are equal, only the first one
 * counts; `sources` come before `resolvedSources`.
 */
export interface SourceNeedle extends Needle {
  source: string;
}
/** A `SourceNeedle` that may have no column. */
export type LineNeedle = Omit<SourceNeedle, 'column'> & Partial<Pick<SourceNeedle, 'column'>>;

export interface OriginalMapping {
  source: string | null;
  line: number;
  column: number;
  name: string | null;
}
export type Mapping = OriginalMapping;
export interface InvalidOriginalMapping {
  source: null;
  line: null;
  column: null;
  name: null;
}
export interface GeneratedMapping {
  line: number;
  column: number;
}
export interface InvalidGeneratedMapping {
  line: null;
  column: null;
}

export type EachMapping =
  | {
      generatedLine: number;
      generatedColumn: number;
      source: null;
      originalLine: null;
      originalColumn: null;
      name: null;
    }
  | {
      generatedLine: number;
      generatedColumn: number;
      source: string | null;
      originalLine: number;
      originalColumn: number;
      name: string | null;
    };

export type SourceMapErrorCode =
  | 'BAD_POSITION'
  | 'IO'
  | 'UTF8'
  | 'BAD_JSON'
  | 'VLQ_LEFTOVER'
  | 'VLQ_NO_VALUES'
  | 'VLQ_OVERFLOW'
  | 'BAD_SEGMENT_SIZE'
  | 'BAD_SOURCE_REFERENCE'
  | 'BAD_NAME_REFERENCE'
  | 'INCOMPATIBLE'
  | 'CANNOT_FLATTEN'
  | 'INVALID_BASE64'
  | 'OUT_OF_MEMORY'
  | 'PAST_LIMIT'
  | 'COMPILED_TRUNCATED'
  | 'COMPILED_MAGIC'
  | 'COMPILED_VERSION'
  | 'COMPILED_EXTENT'
  | 'COMPILED_TEXT'
  | 'COMPILED_ORDER';

/**
 * Why a map or a position is refused. An argument of a wrong type throws a TypeError
 * instead, which names it. A value of a wrong type within a map, as in
 * `mappings: [null]`, may throw a TypeError that does not name it.
 */
export declare class SourceMapError extends Error {
  readonly code: SourceMapErrorCode;
  /** The number that the error is about, such as the id of a source that does not exist, or an unknown version; else 0. */
  readonly number: number;
  constructor(message: string, code: SourceMapErrorCode, number?: number, options?: { cause?: unknown });
}

/** The fields of a `TraceMap`. */
export interface SourceMap extends SourceMapV3 {
  resolvedSources: string[];
}

/**
 * A map that is not an index map. The constructor reads all mappings. If it refuses the
 * map, it throws a SourceMapError, or a TypeError because of a wrong type. It does not
 * check the ids in mappings that are passed decoded.
 */
export declare class TraceMap implements SourceMap {
  version: SourceMapV3['version'];
  file: SourceMapV3['file'];
  names: SourceMapV3['names'];
  sourceRoot: SourceMapV3['sourceRoot'];
  sources: SourceMapV3['sources'];
  sourcesContent: SourceMapV3['sourcesContent'];
  ignoreList: SourceMapV3['ignoreList'];
  /** The sources, resolved against `sourceRoot` and the folder of `mapUrl`. */
  resolvedSources: string[];
  constructor(map: SourceMapInput, mapUrl?: string | null);
}

/**
 * Opens a map of any kind, with or without `new`; an index map is flattened. Throws
 * as the constructor of TraceMap does.
 */
export declare const FlattenMap: {
  new (map: SectionedSourceMapInput, mapUrl?: string | null): TraceMap;
  (map: SectionedSourceMapInput, mapUrl?: string | null): TraceMap;
};
export declare const AnyMap: typeof FlattenMap;

/**
 * The original position of a generated one, from the closest token of the same line.
 * If there is none, or it has no source, all fields are null.
 */
export declare function originalPositionFor(map: TraceMap, needle: Needle): OriginalMapping | InvalidOriginalMapping;

/**
 * Answers many generated positions, each two numbers: a line from 1 and a column
 * from 0. The answer to each is four numbers: the id of the source or NONE, the
 * original line from 1, the original column, and the id of the name or NONE.
 * Without a source, line and column are 0. Line 4294967296 does not fit, and is 0 too.
 */
export declare function originalPositionsFor(map: TraceMap, positions: Uint32Array): Uint32Array;

/**
 * The generated position of an original one, from the closest token of the same
 * source and line. If there is none, both fields are null.
 */
export declare function generatedPositionFor(
  map: TraceMap,
  needle: SourceNeedle,
): GeneratedMapping | InvalidGeneratedMapping;

/**
 * All generated positions of the original position that is closest to this one on
 * its line, or without a column of the first one on the line. The default bias is
 * LEAST_UPPER_BOUND.
 */
export declare function allGeneratedPositionsFor(map: TraceMap, needle: LineNeedle): GeneratedMapping[];

/**
 * The segment of the closest token at a position or before it on the line, null if
 * there is none. Here the line counts from 0.
 */
export declare function traceSegment(map: TraceMap, line: number, column: number): Readonly<SourceMapSegment> | null;

/** Calls back with each token, in the order of generated positions. Lines count from 1, columns from 0. */
export declare function eachMapping(map: TraceMap, callback: (mapping: EachMapping) => void): void;

export declare function sourceContentFor(map: TraceMap, source: string): string | null;
export declare function isIgnored(map: TraceMap, source: string): boolean;

/**
 * The mappings as lines of segments. They belong to the map: do not change them. Throws
 * PAST_LIMIT if they have more than 16,777,216 lines, unless the map was made of such lines,
 * in order.
 */
export declare function decodedMappings(map: TraceMap): readonly SourceMapSegment[][];
/**
 * The mappings as text: the text that was given, or else a text that the library writes, with
 * a `;` for each further line if lines were given. Throws PAST_LIMIT if no text was given and
 * the mappings have more than 16,777,216 lines.
 */
export declare function encodedMappings(map: TraceMap): string;
/** The fields of the map with decoded mappings. */
export declare function decodedMap(
  map: TraceMap,
): Omit<DecodedSourceMap, 'mappings'> & { mappings: readonly SourceMapSegment[][] };
/** The fields of the map with encoded mappings, for JSON.stringify. */
export declare function encodedMap(map: TraceMap): EncodedSourceMap;
/** Opens a map with decoded mappings that are in order. `decodedMappings` returns them as they are. */
export declare function presortedDecodedMap(map: Input<DecodedSourceMap>, mapUrl?: string | null): TraceMap;

export interface CompileOptions {
  /** Whether the compiled map has the contents of its sources. True if it is not given. */
  contents?: boolean;
  /** The URL of the map, against which its sources are resolved as by `TraceMap`. */
  mapUrl?: string | null;
}

/**
 * The compiled map of a map of any kind, in a Buffer: for a file that `CompiledMap` looks up
 * without decoding it. It has the mappings, `resolvedSources`, names, `file`, contents, and of a
 * map that is passed as JSON or as an object its debug id, and the functions of a Hermes map. It
 * has no ignore list. An index map is flattened. Equal maps give equal bytes. Throws as `FlattenMap` does.
 */
export declare function compile(map: SectionedSourceMapInput, options?: CompileOptions): Uint8Array;

/** A position that is looked up in a compiled map: the line counts from 1, the column from 0. */
export interface CompiledNeedle {
  line: number;
  column: number;
  bias?: typeof GREATEST_LOWER_BOUND;
}

/**
 * A compiled map, which is looked up in its bytes. Nothing is decoded: it opens in the same time
 * whatever its size, and workers may share the bytes by a SharedArrayBuffer. The bytes are not
 * copied: do not change them.
 *
 * The constructor checks the header alone, and throws a SourceMapError with the code
 * COMPILED_TRUNCATED, COMPILED_MAGIC, COMPILED_VERSION or COMPILED_EXTENT. Damaged bytes may pass
 * that; then answers may be wrong, and a call that reads a text may throw COMPILED_TEXT or UTF8.
 */
export declare class CompiledMap {
  constructor(bytes: Uint8Array);
  readonly file: string | null;
  /** The debug id as it is printed: hyphenated, in lower case. */
  readonly debugId: string | null;
  readonly tokenCount: number;
  readonly sourceCount: number;
  readonly nameCount: number;
  /** The source of this id, resolved; null if there is none. */
  source(id: number): string | null;
  /** The name of this id; null if there is none. */
  name(id: number): string | null;
  /** The contents of the source of this id; null if there are none. */
  sourceContent(id: number): string | null;
  /**
   * The original position of a generated one, as the function `originalPositionFor` answers it: from
   * the closest token of the same line.
   */
  originalPositionFor(needle: CompiledNeedle): OriginalMapping | InvalidOriginalMapping;
  /** Answers many positions, as the function `originalPositionsFor` does. */
  originalPositionsFor(positions: Uint32Array): Uint32Array;
  /**
   * The name of the function that contains the original position of the closest token of the same
   * line; null if there is none. Only maps that were compiled of Hermes maps have such names.
   */
  scopeFor(needle: CompiledNeedle): string | null;
  /**
   * Reads all bytes. Throws COMPILED_ORDER if the tokens are not sorted, else COMPILED_TEXT or UTF8
   * if a text cannot be read.
   */
  verify(): void;
}

/** A segment of `mappings`: its line, and its index among the segments of this line. Both count from 0. */
export interface SegmentPosition {
  line: number;
  index: number;
}

/** A token, by its generated position. Here the line counts from 0 too. */
export interface TokenPosition {
  line: number;
  column: number;
}

/** By how many lines and columns positions are off throughout. */
export interface Shift {
  lines: number;
  columns: number;
}

/** A place where a map breaks a rule of the standard, or where something looks wrong. */
export interface Finding {
  /** The code of docs/CHECK.md, such as SM132. */
  code: string;
  /** `invalid` if a rule is broken; `suspicious` if the map is valid, but something looks wrong. */
  severity: 'invalid' | 'suspicious';
  /** The indexes of the sections that lead to its map, the outermost first; empty for the whole map. */
  sections: number[];
  /** The key of the map. It is empty where there is none. */
  key: string;
  /** Null if the key says it all. */
  position: SegmentPosition | TokenPosition | Shift | null;
  /** What is wrong, in English. */
  sentence: string;
}

export interface Report {
  /** Whether the map is valid by ECMA-426. */
  valid: boolean;
  /** How many findings are invalid, in all. */
  invalid: number;
  /** How many findings are suspicious, in all. */
  suspicious: number;
  /** The first findings of each code. */
  findings: Finding[];
}

export interface CheckOptions {
  /** The generated text, or its UTF-8 bytes. If it is given, a valid map is compared with it. */
  generated?: string | Uint8Array | null;
  /**
   * The name of the map's file, without folders. If it is given, the reference of the generated text is
   * to end in it. An empty name is none.
   */
  name?: string | null;
  /**
   * The folder of the files of sources, or the files by the names of sources, which are resolved against
   * the `sourceRoot`. If it is given, a valid map is compared with them. In a folder, a name that begins
   * with `/` or has a part `..` has no file. A file that is missing or not UTF-8 counts as none; another
   * error of reading one is thrown.
   */
  sources?: string | Map<string, string | Uint8Array> | null;
  /** How many findings of each code the report has at most: 20 if it is not given; 0 counts as 1. */
  most?: number;
}

/**
 * Checks whether a map is valid by ECMA-426, the standard of source maps, and looks for what looks
 * wrong in a valid one. The map is its JSON, as text or as bytes, or the object that JSON describes.
 * Any text and any bytes give a report: what is no JSON is a finding. Throws UTF8 if the bytes of the
 * generated text are not UTF-8.
 */
export declare function check(map: string | Uint8Array | object, options?: CheckOptions): Report;
