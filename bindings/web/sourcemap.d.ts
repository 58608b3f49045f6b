/** In answers, the id of a source or name that is missing. */
export declare const NONE: 0xffffffff;

export type SourceMapErrorCode =
  /** This browser or this Node has no 64-bit memories for WebAssembly. The message says what to do. */
  | 'NO_MEMORY64'
  /** The module is missing, or not the one of this package. */
  | 'NO_MODULE'
  /** The file could not be read. */
  | 'IO'
  | 'OUT_OF_MEMORY'
  /** The module failed, which is a defect. Other maps stay usable. */
  | 'TRAP'
  /** The map was closed. */
  | 'CLOSED'
  | 'BAD_POSITION'
  | 'UTF8'
  | 'VLQ_LEFTOVER'
  | 'VLQ_NO_VALUES'
  | 'VLQ_OVERFLOW'
  | 'INVALID_BASE64'
  | 'COMPILED_TRUNCATED'
  | 'COMPILED_MAGIC'
  | 'COMPILED_VERSION'
  | 'COMPILED_EXTENT'
  | 'COMPILED_TEXT'
  | 'COMPILED_ORDER';

/** Why a map or a position is refused. An argument of a wrong type throws a TypeError instead. */
export declare class SourceMapError extends Error {
  readonly code: SourceMapErrorCode;
  constructor(message: string, code: SourceMapErrorCode, options?: { cause?: unknown });
}

/** A generated position: the line counts from 1, the column from 0 in UTF-16 units. */
export interface Needle {
  line: number;
  column: number;
}

export interface OriginalMapping {
  source: string | null;
  line: number;
  column: number;
  name: string | null;
}

export interface InvalidOriginalMapping {
  source: null;
  line: null;
  column: null;
  name: null;
}

/**
 * What a compiled map is loaded from. Bytes are copied, those that are read as they come: pass a `Response`
 * rather than its `arrayBuffer()`, which takes as much memory again.
 */
export type CompiledMapInput =
  string | URL | Request | Response | ReadableStream<Uint8Array> | Blob | ArrayBuffer | ArrayBufferView;

/**
 * A compiled map, in the memory of a WebAssembly module that all maps share. Close it when it is no
 * longer needed: its memory is then used for other maps.
 *
 * Damaged bytes may pass `load`, which checks the header alone; then answers may be wrong, and a call
 * that reads a text may throw COMPILED_TEXT or UTF8. `verify` tells it of any bytes.
 */
export declare class CompiledMap {
  private constructor();

  /** Whether there are 64-bit memories. Without them `load` throws NO_MEMORY64. */
  static isSupported(): boolean;

  /**
   * Says where the module is: its bytes, the compiled module, or its URL. It is `sourcemap.wasm` beside
   * this file if nothing is said. To be called before the first map is loaded.
   */
  static useModule(module: BufferSource | WebAssembly.Module | string | URL): void;

  /**
   * Opens a compiled map. Throws COMPILED_TRUNCATED, COMPILED_MAGIC, COMPILED_VERSION or
   * COMPILED_EXTENT for bytes that are none, IO for a file that cannot be read. The error of a stream that
   * was passed is thrown as it is.
   */
  static load(from: CompiledMapInput): Promise<CompiledMap>;

  /**
   * Opens a compiled map in a buffer that the page gives up, in a time that does not grow with its length. The
   * buffer is empty afterwards, as after `postMessage`, unless the map is refused; its bytes are copied when a
   * call first reads the map. Throws a TypeError for what is no such buffer.
   */
  static load(from: ArrayBuffer | ArrayBufferView, options: { transfer: true }): Promise<CompiledMap>;

  readonly file: string | null;
  /** The debug id as it is printed: hyphenated, in lower case. */
  readonly debugId: string | null;
  readonly tokenCount: number;
  readonly sourceCount: number;
  readonly nameCount: number;

  /** The sources by id, resolved; null where one is empty in the file. Made at the first call. */
  readonly sources: readonly (string | null)[];
  /** The names by id. Made at the first call. */
  readonly names: readonly (string | null)[];

  /** The source of this id; null if there is none. */
  source(id: number): string | null;
  /** The name of this id; null if there is none. */
  name(id: number): string | null;
  /** The contents of the source of this id; null if there are none. */
  sourceContent(id: number): string | null;
  /** A line of the contents of a source, without its end; null if there is none. Lines count from 1. */
  sourceLine(id: number, line: number): string | null;
  /**
   * `span` UTF-16 units of such a line from a column on; null if it has fewer. A column within a
   * surrogate pair is moved after it.
   */
  sourceSlice(id: number, line: number, column: number, span: number): string | null;
  /** The contents of a source, of equal ones the first; null if there are none. */
  sourceContentFor(source: string): string | null;

  /**
   * The original position of a generated one, from the closest token of the same line: the first at
   * the position, else the last one before it. All fields are null if there is none, or if it has no
   * source.
   */
  originalPositionFor(needle: Needle): OriginalMapping | InvalidOriginalMapping;

  /**
   * Answers many generated positions, each two numbers: a line from 1 and a column from 0. The answer
   * to each is four numbers: the id of the source or NONE, the original line from 1, the original
   * column, and the id of the name or NONE. Without a source, line and column are 0. Line 4294967296
   * does not fit, and is 0 too. The answers are written to `answers` if it is passed, else to a new
   * array.
   */
  lookupMany(positions: Uint32Array, answers?: Uint32Array): Uint32Array;

  /**
   * The closest token of each generated position, whichever line it is on. Here all lines count from 0.
   * A position is two numbers: line and column. A token is eight: generated line and column, original
   * line and column (with the columns that a range token adds), the ids of source and name or NONE,
   * 1 for a range token, and 1. If there is no token, all eight are 0.
   */
  closestTokens(positions: Uint32Array, tokens?: Uint32Array): Uint32Array;

  /**
   * The token with this index, eight numbers as `closestTokens` writes them; null if there are no more.
   * Indices count from 0, in the order of the file.
   */
  token(index: number): Uint32Array | null;

  /**
   * Writes the tokens from an index on, eight numbers each, as many as `tokens` has room for. Returns how
   * many it wrote.
   */
  tokensAt(index: number, tokens: Uint32Array): number;

  /**
   * Writes the tokens at or after a generated position, of equal positions the first, in order: as many
   * as `tokens` has room for, eight numbers each, as `closestTokens` writes them. The line counts from 0.
   * Returns how many it wrote; fewer than there is room for if no more follow. To go on, pass the
   * position of the last one with a column more. The map must be in order, as every map is that
   * `compile` made.
   */
  tokensFrom(line: number, column: number, tokens: Uint32Array): number;

  /** The name of the function that the closest token of the same line is in; null if there is none. */
  scopeFor(needle: Needle): string | null;

  /**
   * Reads all bytes. Throws COMPILED_ORDER if the tokens are not sorted, else COMPILED_TEXT or UTF8 if a
   * text cannot be read.
   */
  verify(): void;

  /** Gives the memory back. Any later call but this one throws CLOSED. */
  close(): void;
}

/**
 * The numbers of a segment of `mappings`. Throws the first error: INVALID_BASE64 for a byte that is no
 * digit, VLQ_OVERFLOW for a number of 2^62 or more or of more than 13 digits, VLQ_LEFTOVER if the segment
 * ends within a number, VLQ_NO_VALUES for an empty segment.
 */
export declare function parseSegment(segment: string): Promise<BigInt64Array>;
