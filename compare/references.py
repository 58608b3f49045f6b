"""The rules of references to maps, of paths, and of texts that are maps. The code follows the rules of the format, and
takes nothing from the programs that are compared.

The Rust crate is known to depart from these rules in some ways. Each way has a name, and the arguments `ways` take such
names. So a script can test whether a reason for a difference leads to the crate's answer. The ways are:

- dots: a path that references are resolved against keeps its `..`
- drive: if a path that references are resolved against begins with a component like `C:`, this is the letter of a drive
- scheme: a URL of any scheme has a path, if it has no host or the host `localhost`
- bytes: a path need not be UTF-8
- colon: a path that ends in a letter and `:` or `|` gets a slash at the end
- url: the crate's library `url` departs from the URL Standard. It does not escape `^` in a path. If the scheme of the
  base is special and not `file`, it refuses a reference that begins with three slashes. If the scheme of the base is
  not special, it reads a backslash at the start of a reference as a slash. It drops empty segments at the start of the
  path of a file, and the host before the letter of a drive
- old url: version 2.3.1 of `url` changes each segment `C|` of the path of a file to `C:`. It puts no `/.` before a path
  that begins with `//`
- new url: version 2.5.4 of `url` keeps the bar of the drive in `file:///C|/`. If the first segment of the path of a
  file begins like a drive, and continues with a character outside of ASCII, it splits this segment there
- nothing: the components of a relative path are joined without slashes
- forgotten: the paths are sorted by the number of their components. Only these count: the shortest path, and the paths
  after the last one that shares nothing with the shortest. If that one is the last of all, no path counts
- array: a JSON array may stand for the object of a map. Its items are the values of `KEYS`, in their order
- twice: a text in which a key of a map occurs twice is no map
- skipped: of a JSON value that the crate skips, only the outline must be valid
"""
import itertools, json, os, re
from urllib.parse import unquote_to_bytes
from urls import DRIVE, EDGES, PATH, Refused, is_special, parse_url, path_of_url, path_text, text_of, url_of_path
from walks import SPACE

MARKS = {'//# sourceMappingURL=': 'regular', '//@ sourceMappingURL=': 'legacy'}
SPACES = ''.join(letter for letter in map(chr, range(0x3001)) if SPACE.fullmatch(letter))
KEYS = ('version', 'file', 'sources', 'sourceRoot', 'sourcesContent', 'sections', 'names', 'mappings')
BARRED = re.compile(r'file:///[A-Za-z]\|', re.I)
SEPARATOR = re.compile(r'[/\\]')
ROOTED = re.compile(r'/|[A-Za-z]:[/\\].')
DEEPEST = 127


def locate_reference(data):
    """The kind and the URL of the first reference in a text. None if there is none. `InvalidData` if a line is not
    UTF-8 and no reference comes before it."""
    for line in data.split(b'\n'):
        try:
            text = line.decode()
        except UnicodeDecodeError:
            return 'InvalidData'
        if text[:21] in MARKS:
            return [MARKS[text[:21]], text[21:].strip(SPACES)]
    return None


def by_the_library(url, text, ways):
    """The URL of a text by the Rust library `url`. The argument `url` is the one by the URL Standard."""
    path = url.path
    if isinstance(path, str) or url.scheme != 'file':
        return url
    if 'old url' in ways:
        path = [f'{part[0]}:' if DRIVE.fullmatch(part) else part for part in path]
    if 'new url' in ways and BARRED.match(text):
        path = [f'{path[0][0]}|', *path[1:]]
    if 'new url' in ways and re.match('[A-Za-z]:%[89A-F]', path[0]):
        path = [path[0][:2], path[0][2:], *path[1:]]
    if 'url' in ways:
        path = [*itertools.dropwhile(lambda part: part == '', path[:-1]), *path[-1:]]
        url = url._replace(host='' if DRIVE.fullmatch(path[0]) else url.host)
    return url._replace(path=path)


def path_escapes(ways):
    return PATH - {ord('^')} if 'url' in ways else PATH


def url_of_reference(reference, base, ways):
    """The URL of a reference that is resolved against a base. Raises `Refused` if there is none."""
    text = reference.strip(EDGES)
    if 'url' in ways and is_special(base.scheme) and base.scheme != 'file' and re.match(r'[/\\]{3}', text):
        raise Refused
    if 'url' in ways and not is_special(base.scheme) and text.startswith('\\'):
        text = f'/{text[1:]}'
    return by_the_library(parse_url(text, base, path_escapes(ways)), text, ways)


def resolved_url(reference, base, ways=()):
    """The URL that a reference resolves to, as a text. `base` is the URL of the text that has the reference. None for
    a `data:` URL, or if a URL is invalid."""
    if reference.startswith('data:'):
        return None
    try:
        text = text_of(url_of_reference(reference, parse_url(base, None, path_escapes(ways)), ways))
    except Refused:
        return None
    return re.sub(r'^([^/]*:)/\.//', r'\1//', text) if 'old url' in ways else text


def base_by(path, ways, is_folder=False):
    """The URL of the path of a text, or of a folder. None if the path is not absolute."""
    url = url_of_path(path, is_folder)
    parts = [part for part in path.split('/') if part not in ('', '.')]
    if url and '..' in parts and 'dots' in ways:
        url = url_of_path('/' + '/'.join('x' if part == '..' else part for part in parts), is_folder)
        url = url._replace(path=[*('..' if part == '..' else kept for part, kept in zip(parts, url.path)), *url.path[len(parts):]])
    if url and 'drive' in ways and re.fullmatch('[A-Za-z]%3A', url.path[0]):
        url = url._replace(path=[f'{url.path[0][0]}:', *url.path[1:]])
    return url


def path_by(url, ways):
    if url.scheme != 'file' and 'scheme' in ways and not isinstance(url.path, str) and url.host in (None, '', 'localhost'):
        url = url._replace(scheme='file', host='')
    path = path_of_url(url)
    if path is None and 'bytes' in ways and url.scheme == 'file' and not url.host:
        path = unquote_to_bytes(path_text(url)).decode('latin-1')
    elif path is not None:
        path = path.encode().decode('latin-1')
    return path + '/' if path and 'colon' in ways and re.search('[A-Za-z][:|]$', path) else path


def resolved_path(reference, path, ways=()):
    """The path that a reference resolves to, with a character for each byte. `path` is that of the text that has the
    reference. None if there is no such path."""
    base = base_by(path, ways)
    if reference.startswith('data:') or base is None:
        return None
    try:
        return path_by(url_of_reference(reference, base, ways), ways)
    except Refused:
        return None


def relative_path(base, target, ways=()):
    base, target = (list(filter(None, SEPARATOR.split(path))) for path in (base, target))
    base = base[:-1]
    shared = len(os.path.commonprefix([base, target]))
    steps = '../' * (len(base) - shared)
    return steps + ('' if 'nothing' in ways else '/').join(target[shared:]) or '.'


def common_prefix(paths, ways=()):
    """The common prefix of the absolute paths, in whole components. None if it is empty or only `/`."""
    parts = [re.split(r'(?=[/\\])', path) for path in paths if ROOTED.match(path)]
    parts.sort(key=len)
    if 'forgotten' in ways and parts:
        alone = [index for index, each in enumerate(parts) if each[0] != parts[0][0]]
        parts = parts[:1] + parts[max(alone, default=0) + 1:] if not alone or alone[-1] + 1 < len(parts) else []
    shared = ''.join(os.path.commonprefix(parts)) if parts else ''
    return None if shared in ('', '/') else shared


def cut_sources(sources, ways=()):
    """The distinct sources of a map, without the common prefix of those that are absolute."""
    prefix = common_prefix(sources, ways)
    front = prefix if prefix is None or prefix.endswith('/') else f'{prefix}/'
    return [source[len(front):] if front and source.startswith(front) else source for source in dict.fromkeys(sources)]


def without_header(data):
    """The bytes after a junk header. None if a carriage return in the header is not at its end."""
    if data[:1] not in (b')', b']', b'}', b"'"):
        return data
    header, _, rest = data.partition(b'\n')
    return rest if b'\r' not in header[:-1] else None


class NoMap(Exception):
    """The text is not JSON by the rules."""


class Twice(dict):
    """An object in which a key of a map occurs twice."""


def number(text):
    """The value of a JSON number. It is an int if the text is an integer and not `-0`. Only an int may be a version."""
    value = int(text) if re.fullmatch('-?[0-9]+', text) and text != '-0' else float(text)
    if value in (float('inf'), float('-inf')):
        raise NoMap
    return value


def refuse(*_):
    raise NoMap


def depth_of(text):
    """How deeply the lists and objects of a JSON text are nested."""
    outside = re.sub(r'"(?:[^"\\]|\\.)*"', '', text, flags=re.S)
    return max(itertools.accumulate((letter in '[{') - (letter in ']}') for letter in outside), default=0)


def has_lone_surrogates(value):
    """Whether a text, or a text in a list, has one. `json_value` tests the parts of each object when it is made."""
    if isinstance(value, list):
        return any(map(has_lone_surrogates, value))
    return isinstance(value, str) and any('\ud800' <= letter <= '\udfff' for letter in value)


def json_value(data, is_strict, is_twice):
    """The value of a JSON text. If it is not strict, it accepts any bytes in texts, any numbers and any depth."""
    def object_of(pairs):
        keys = [key for key, _ in pairs if key in KEYS]
        if is_strict and any(map(has_lone_surrogates, [*dict(pairs), *(value for _, value in pairs)])):
            raise NoMap
        return (Twice if is_twice and len(keys) > len(set(keys)) else dict)(pairs)

    text = data.decode(errors='strict' if is_strict else 'replace')
    if is_strict and depth_of(text) > DEEPEST:
        raise NoMap
    return json.loads(text, parse_int=number, parse_float=number if is_strict else float, parse_constant=refuse,
                      object_pairs_hook=object_of)


def is_map(data, ways=()):
    """Whether bytes hold a source map, by the keys of their JSON value."""
    rest = without_header(data)
    try:
        record = json_value(rest or b'', 'skipped' not in ways, 'twice' in ways)
    except (NoMap, ValueError, RecursionError):
        return False
    if 'array' in ways and isinstance(record, list) and len(record) == len(KEYS):
        record = dict(zip(KEYS, record))
    if not isinstance(record, dict) or isinstance(record, Twice):
        return False
    version = record.get('version')
    if version is not None and (type(version) is not int or not 0 <= version < 1 << 32):
        return False
    has = {key: record.get(key) is not None for key in KEYS}
    has_lists = has['sources'] or has['sourceRoot'] or has['sourcesContent'] or has['names']
    return (has['version'] or has['file']) and has_lists and has['mappings'] or has['sections']
