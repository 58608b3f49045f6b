'use strict';

// A scheme, an authority, a path, and the rest: a query and a fragment.
const PARTS = /^([\w+.-]+:(?=\/\/))?(\/\/[^/?#]*)?([^?#]*)(.*)$/s;
const SHORT_FILE_URL = /^file:(?!\/\/)/i;

function partsOf(reference) {
  const [, scheme = '', authority = '', path, rest] = PARTS.exec(reference.replace(SHORT_FILE_URL, 'file:///'));
  return { origin: scheme + authority, scheme, authority, path, rest };
}

/**
 * The path without `.`, `..` and empty segments, and without a slash at its
 * beginning. A relative path keeps each `..` that leads above its beginning.
 */
function normalize(path, isAbsolute) {
  const kept = [];
  let isFolder = false;
  for (const segment of path.split('/')) {
    const leadsUp = segment === '..' && kept.length > 0 && kept.at(-1) !== '..';
    isFolder = segment === '' || leadsUp;
    if (leadsUp) kept.pop();
    else if (segment !== '' && segment !== '.' && (segment !== '..' || !isAbsolute)) kept.push(segment);
  }
  return kept.join('/') + (isFolder && kept.length > 0 && kept.at(-1) !== '..' ? '/' : '');
}

/**
 * The text of a relative path. `first` is the folder, or the reference if there is no
 * folder. If `first` begins with `.`, `?` or `#`, and the path does not begin with `.`,
 * then `./` is put before the path. But if nothing is left of the path, the text is `rest`,
 * or `.` if `rest` is empty.
 */
function relative(path, rest, first) {
  const whole = normalize(path, false);
  if (whole === '') return rest || '.';
  const isDotted = /^[.?#]/.test(first) && !whole.startsWith('.');
  return (isDotted ? './' : '') + whole + rest;
}

/** Resolves a reference against a folder, which may be a URL, a path, or the empty text. */
function resolve(reference, folder) {
  if (reference === '' && folder === '') return '';
  const base = partsOf(folder === '' || folder.endsWith('/') ? folder : `${folder}/`);
  const { scheme, authority, path, rest } = partsOf(reference);
  if (authority !== '') return `${scheme || base.scheme}${authority}/${normalize(path, true)}${rest}`;
  if (path.startsWith('/')) return `${base.origin}/${normalize(path, true)}${rest}`;
  const joined = base.path.replace(/[^/]*$/, '') + path;
  if (base.origin === '' && !base.path.startsWith('/')) return relative(joined, rest, folder || reference);
  return `${base.origin}/${normalize(joined, true)}${rest}`;
}

/**
 * Returns a function that resolves the sources of a map: against its `sourceRoot`,
 * which is itself resolved against the folder of the map's URL. A null source
 * counts as the empty text. JavaScript resolves them because the library joins sources
 * to `sourceRoot` as texts, and does not know the URL of the map.
 */
function resolver(mapUrl, sourceRoot) {
  const folder = (mapUrl || '').replace(/[^/]*$/, '');
  const root = resolve(sourceRoot || '', folder);
  return (source) => resolve(source ?? '', root);
}

module.exports = { resolver };
