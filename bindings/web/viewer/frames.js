/*
 * Frames of JavaScript stack traces, as V8, SpiderMonkey and JavaScriptCore print them. Lines and columns count from 1.
 * A line is a frame with a position, or it is kept unchanged.
 */

/** A line of more characters is no frame. This also bounds the time of the patterns below. */
const LONGEST_FRAME = 8192;

/** The colours of a terminal. */
const COLOUR = /\x1b\[[0-9;]*m/g;
/** What tools put before each line of a program: `web-1  | `, `[api] `. */
const PREFIX = /^(?:[\w.-]+ *\||\[[^\]]*\]) /;
/** `at NAME (LOCATION)` or `at LOCATION`. Node prints ` {` after the last frame of an error with properties. */
const AT = /^\s*at (?:(?<name>.+?) \((?<inside>.*)\)|(?<bare>.+?))(?: \{)?\s*$/d;
const EVAL = /^eval at .+? \((?<inside>.*)\)(?:, (?<own>.*))?$/d;
const NUMBERS = /:(?<line>[0-9]{1,10})(?::(?<column>[0-9]{1,10}))?$/;
/** `FILE line LINE > eval`, where LINE is that of the call of eval. */
const EVAL_LINE = /^(?<file>.+?) line (?<line>[0-9]{1,10}) > /d;
/** Scripts of the engine itself, which have no maps. */
const BUILT_IN = /^(?:node:.*|internal\/.*|self-hosted|<anonymous>)$/;
const BARE_PATH = /^(?:\/|[A-Za-z]:[\\/]|[A-Za-z][A-Za-z0-9+.-]*:\/\/)/;

/**
 * The frame on a line, which is given without its end; null if it is none. `line` and `column` are as printed, `column`
 * null if none was. The text from `start` up to `end` is file, line and column.
 */
export function parseFrame(text) {
  if (text.length > LONGEST_FRAME) return null;
  const plain = text.replace(COLOUR, '');
  const prefix = PREFIX.exec(plain);
  const first = prefix === null ? 0 : prefix[0].length;
  const frame = parseOwn(plain.slice(first));
  return frame && { ...frame, text: plain, start: frame.start + first, end: frame.end + first };
}

function parseOwn(text) {
  const at = AT.exec(text);
  if (at !== null) return parseAt(text, at);
  const mark = text.indexOf('@');
  if (mark >= 0 && !BARE_PATH.test(text.slice(0, mark).trimStart())) return parseMarked(text, mark + 1);
  const frame = frameAt(text, text.length - text.trimStart().length, text.trimEnd().length);
  return frame === null || frame.column === null ? null : frame;
}

/** A frame of V8. */
function parseAt(text, { indices: { groups: { inside, bare } } }) {
  if (bare !== undefined) {
    const [start, end] = bare;
    return frameAt(text, text.startsWith('async ', start) ? start + 'async '.length : start, end);
  }
  return evaluatedFrame(text, inside) ?? frameAt(text, ...inside);
}

/** The frame of evaluated code that names its script, otherwise that of the outermost call of eval; null if it is no
 * evaluated code. */
function evaluatedFrame(text, span) {
  let inside = null;
  for (let next = span; next !== null;) {
    const match = EVAL.exec(text.slice(...next));
    const own = match?.indices.groups.own;
    if (inside === null && own !== undefined && !match.groups.own.startsWith('<anonymous>')) {
      return frameAt(text, next[0] + own[0], next[0] + own[1]);
    }
    if (match === null) break;
    inside = match.indices.groups.inside.map((at) => at + next[0]);
    next = inside;
  }
  return inside === null ? null : frameAt(text, ...inside);
}

/** A frame of SpiderMonkey or JavaScriptCore, whose location begins after an `@`. */
function parseMarked(text, start) {
  const end = text.trimEnd().length;
  const evaluated = EVAL_LINE.exec(text.slice(start, end));
  if (evaluated === null) return frameAt(text, start, end);
  const { file, line } = evaluated.groups;
  return { file, line: Number(line), column: null, start, end: start + evaluated.indices.groups.line[1] };
}

/** The frame with its location from `start` up to `end`; null if that is no file with a line, or one of the engine. */
function frameAt(text, start, end) {
  const location = text.slice(start, end);
  const numbers = NUMBERS.exec(location);
  if (numbers === null || numbers.index === 0) return null;
  const file = location.slice(0, numbers.index);
  if (BUILT_IN.test(file)) return null;
  const { line, column } = numbers.groups;
  return { file, line: Number(line), column: column === undefined ? null : Number(column), start, end };
}

/** The last part of a path or URL, without its query. */
export function baseName(path) {
  return path.replace(/[?#].*$/, '').split(/[\\/]/).pop();
}
