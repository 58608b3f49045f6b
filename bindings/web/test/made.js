/** Compiled maps for tests, written as docs/COMPILED.md says: all widths are 32 bits, 1 bit for the range flag. */
import { NONE } from './format.js';

const BLOCK = 64;
const WIDTHS = [32, 32, 32, 32, 32, 32, 1, 8];
const utf8 = new TextEncoder();

function bodyOf(tokens) {
  const body = new Uint8Array(8 * WIDTHS.reduce((sum, width) => sum + width));
  const view = new DataView(body.buffer);
  tokens.forEach((token, place) => {
    for (let field = 0; field < 6; field += 1) view.setUint32(256 * field + 4 * place, token[field], true);
    if (token[6]) body[1536 + Math.floor(place / 8)] |= 1 << (place % 8);
    body[1544 + place] = token[7] ?? 0;
  });
  return body;
}

/** The bytes of texts by number, with a zero byte after each that is there. */
function textBytes(texts) {
  return texts.map((text) => (text === null ? new Uint8Array() : utf8.encode(`${text}\0`)));
}

/**
 * A compiled map. A token is generated line and column, source, original line and column, name, whether it is a range
 * token, and the id of its scope plus 1.
 */
export function make({ tokens = [], sources = [], names = [], scopes = [], file = null, contents = [], debugId = null }) {
  const blocks = Array.from({ length: Math.ceil(tokens.length / BLOCK) }, (_, i) => tokens.slice(BLOCK * i, BLOCK * (i + 1)));
  const texts = textBytes([...sources, ...names, ...scopes, file, ...contents]);
  const bodyLength = 8 * WIDTHS.reduce((sum, width) => sum + width);
  const tables = 64 + bodyLength * blocks.length;
  const end = tables + 40 * blocks.length + 4 * (texts.length + 1);
  const length = texts.reduce((sum, text) => sum + text.length, end);
  const bytes = new Uint8Array(length);
  const view = new DataView(bytes.buffer);
  const put = (at, ...words) => words.forEach((word, i) => view.setUint32(at + 4 * i, word, true));
  put(0, 0x434d538f, 1, length, tokens.length, sources.length, names.length, contents.length, debugId === null ? 0 : 1);
  if (debugId !== null) bytes.set(debugId, 32);
  put(48, tables, scopes.length);
  blocks.forEach((block, i) => {
    const head = tables + 8 * blocks.length + 32 * i;
    put(tables + 8 * i, block[0][1], block[0][0]);
    put(head, 64 + bodyLength * i);
    bytes.set(WIDTHS, head + 24);
    bytes.set(bodyOf(block.map((token) => [token[0] - block[0][0], ...token.slice(1)])), 64 + bodyLength * i);
  });
  let at = end;
  texts.forEach((text, i) => {
    put(tables + 40 * blocks.length + 4 * i, at);
    bytes.set(text, at);
    at += text.length;
  });
  put(tables + 40 * blocks.length + 4 * texts.length, at);
  return bytes;
}

/** A map that has one of all: a token without a source, without a name, a range token, equal positions, scopes. */
export const ALL = make({
  tokens: [
    [0, 2, 0, 4, 1, 0, false, 1],
    [0, 5, NONE, NONE, NONE, NONE, false, 0],
    [0, 9, 1, 7, 3, NONE, true, 2],
    [2, 0, 1, 8, 0, 1, false, 0],
    [2, 0, 0, 9, 9, 0, false, 0],
    [2, 4, 0, 10, 2, 1, false, 0],
  ],
  sources: ['src/a.js', 'src/ü😀.js'],
  names: ['x', 'toString'],
  scopes: ['main', 'inner'],
  file: 'out.js',
  contents: ['var x;\nvar y;\r\nß = 1', null],
  debugId: Uint8Array.from({ length: 16 }, (_, i) => i),
});
