"""The rules of URLs, as the URL Standard states them, and of paths as URLs. The code follows these rules, and takes
nothing from the programs that are compared.

The result is left open, and `Open` is raised, for hosts that begin with `[` and for hosts that are not ASCII. In
special schemes the same holds for hosts that contain `%`, and for hosts whose last label is a number.
"""
import collections, re
from urllib.parse import unquote_to_bytes

PORTS = {'http': 80, 'https': 443, 'ws': 80, 'wss': 443, 'ftp': 21, 'file': None}
SCHEME = re.compile(r'([A-Za-z][A-Za-z0-9+.-]*):')
EDGES = ''.join(map(chr, range(33)))
DRIVE = re.compile(r'[A-Za-z][:|]')
DRIVE_FIRST = re.compile(r'[A-Za-z][:|](?:[/\\]|\Z)')
ONE_DOT, TWO_DOTS = re.compile(r'(?:\.|%2e)', re.I), re.compile(r'(?:\.|%2e){2}', re.I)
UNRESERVED = frozenset(b'ABCDEFGHIJKLMNOPQRSTUVWXYZabcdefghijklmnopqrstuvwxyz0123456789-._~')

# the bytes that are escaped in each part of a URL; bytes below the space and above `~` are always escaped
FRAGMENT = frozenset(b' "<>`')
PATH = FRAGMENT | frozenset(b'#?^{}')
USER = PATH | frozenset(b'/:;=@[\\]|')
QUERY = frozenset(b' "#<>')
OPAQUE = frozenset()
FORBIDDEN = re.compile(r'[\0-\x20#%/:<>?@\[\\\]^|\x7f]')
FORBIDDEN_OPAQUE = re.compile(r'[\0\t\n\r #/:<>?@\[\\\]^|]')

# The path is a list of segments, or a text if it is opaque. The host is None if the URL has no host.
Url = collections.namedtuple('Url', 'scheme user password host port path query fragment')


class Refused(Exception):
    """The text is not a valid URL."""


class Open(Exception):
    """The result for the host is left open."""


def escape(text, escapes):
    return ''.join(chr(b) if 32 <= b < 127 and b not in escapes else f'%{b:02X}' for b in text.encode())


def is_special(scheme):
    return scheme in PORTS


def cut_at(text, mark):
    """The text before the first mark, and the text after it. If there is no mark: all text, and None."""
    before, found, after = text.partition(mark)
    return before, after if found else None


def host_of(scheme, text):
    if text[:1] == '[' or not text.isascii() or '%' in text and is_special(scheme):
        raise Open
    if not is_special(scheme):
        if FORBIDDEN_OPAQUE.search(text):
            raise Refused
        return escape(text, OPAQUE)
    if not text or FORBIDDEN.search(text):
        raise Refused
    if re.search(r'(?:^|\.)(?:[0-9]+|0[xX][0-9A-Fa-f]*)\.?$', text):
        raise Open
    return text.lower()


def port_of(scheme, text):
    if not text:
        return None
    if not (text.isascii() and text.isdigit()) or int(text) > 65535:
        raise Refused
    return None if int(text) == PORTS.get(scheme) else int(text)


def apart(scheme, text):
    """The text before the first slash, and the rest. In special schemes a backslash counts as a slash."""
    at = re.search(r'[/\\]' if is_special(scheme) else '/', text)
    return (text[:at.start()], text[at.start():]) if at else (text, '')


def with_authority(scheme, text, escapes):
    """Parses what follows the two slashes: an authority and a path."""
    authority, rest = apart(scheme, text)
    user, found, address = authority.rpartition('@')
    name, password = cut_at(user, ':')
    host, port = re.fullmatch(r'((?:\[[^\]]*\]?|[^:\[])*)(?::(.*))?', address, re.S).groups()
    if not host and (found or port is not None):
        raise Refused
    host, port = host_of(scheme, host), port_of(scheme, port or '')
    if rest[:1] == '/' or is_special(scheme) and rest[:1] == '\\':
        rest = rest[1:]
    elif not is_special(scheme):
        return Url(scheme, escape(name, USER), escape(password or '', USER), host, port, [], None, None)
    return Url(scheme, escape(name, USER), escape(password or '', USER), host, port, with_segments(scheme, [], rest, escapes), None, None)


def shorten_path(scheme, path):
    """A path without its last segment. If a `file` path is only a drive letter with a colon, it is not changed."""
    if scheme == 'file' and len(path) == 1 and DRIVE.fullmatch(path[0]) and path[0][1] == ':':
        return path
    return path[:-1]


def with_segments(scheme, path, text, escapes):
    """A path to which the segments of a text are appended: `.` and `..` are resolved, other segments are escaped."""
    parts = re.split(r'[/\\]' if is_special(scheme) else '/', text)
    for count, part in enumerate(parts, 1):
        if TWO_DOTS.fullmatch(part):
            path = shorten_path(scheme, path)
        elif ONE_DOT.fullmatch(part):
            path = path[:]
        elif scheme == 'file' and not path and DRIVE.fullmatch(part):
            path = [f'{part[0]}:']
            continue
        else:
            path = [*path, escape(part, escapes)]
            continue
        if count == len(parts):
            path = [*path, '']
    return path


def file_parsed(base, text, escapes):
    slashes = re.match(r'[/\\]{0,2}', text).end()
    rest, host = text[slashes:], base.host if base else ''
    if slashes == 2:
        address, after = apart('file', rest)
        if DRIVE.fullmatch(address):
            return Url('file', '', '', '', None, with_segments('file', [], rest, escapes), None, None)
        host = '' if not address else host_of('file', address)
        host = '' if host == 'localhost' else host
        return Url('file', '', '', host, None, with_segments('file', [], after[1:], escapes), None, None)
    path = []
    if base and not DRIVE_FIRST.match(rest):
        if slashes == 0:
            path = shorten_path('file', base.path)
        elif base.path and DRIVE.fullmatch(base.path[0]) and base.path[0][1] == ':':
            path = base.path[:1]
    return Url('file', '', '', host, None, with_segments('file', path, rest, escapes), None, None)


def relative_parsed(base, text, escapes):
    slashes = re.match(r'[/\\]{0,2}' if is_special(base.scheme) else '/{0,2}', text).end()
    if slashes == 2:
        rest = text.lstrip('/\\') if is_special(base.scheme) else text[2:]
        return with_authority(base.scheme, rest, escapes)
    path = shorten_path(base.scheme, base.path) if slashes == 0 else []
    return base._replace(path=with_segments(base.scheme, path, text[slashes:], escapes), query=None, fragment=None)


def body_parsed(scheme, base, text, escapes):
    """Parses a URL up to its path. `base` has the same scheme, or is None."""
    if scheme == 'file':
        return file_parsed(base, text, escapes)
    if base and (not is_special(scheme) or text[:2] != '//'):
        return relative_parsed(base, text, escapes)
    if is_special(scheme):
        return with_authority(scheme, text.lstrip('/\\'), escapes)
    if text[:2] == '//':
        return with_authority(scheme, text[2:], escapes)
    path = with_segments(scheme, [], text[1:], escapes) if text[:1] == '/' else escape(text, OPAQUE)
    return Url(scheme, '', '', None, None, path, None, None)


def parse_url(text, base=None, escapes=PATH):
    """Parses a URL, which may be relative to the URL `base`. `escapes` are the bytes that are escaped in the segments
    of its path. Raises `Refused` if the text is not a valid URL."""
    text, fragment = cut_at(re.sub('[\t\n\r]', '', text.strip(EDGES)), '#')
    found = SCHEME.match(text)
    text, query = cut_at(text[found.end():] if found else text, '?')
    scheme = found.group(1).lower() if found else base.scheme if base else None
    if scheme is None or not found and isinstance(base.path, str) and (text or query is not None or fragment is None):
        raise Refused
    if found and not (base and base.scheme == scheme and is_special(scheme)):
        base = None
    is_base = base and not text
    url = base if is_base else body_parsed(scheme, base, text, escapes)
    # a space right before `?` or `#` is escaped; only an opaque path can end with one
    if not is_base and isinstance(url.path, str) and url.path[-1:] == ' ' and (query, fragment) != (None, None):
        url = url._replace(path=f'{url.path[:-1]}%20')
    if query is not None:
        url = url._replace(query=escape(query, QUERY | frozenset(b"'") if is_special(scheme) else QUERY))
    return url._replace(fragment=None if fragment is None else escape(fragment, FRAGMENT))


def path_text(url):
    return url.path if isinstance(url.path, str) else ''.join(f'/{segment}' for segment in url.path)


def text_of(url):
    text = f'{url.scheme}:'
    if url.host is not None:
        secret = f':{url.password}' if url.password else ''
        text += '//' + (f'{url.user}{secret}@' if url.user or secret else '') + url.host
        text += '' if url.port is None else f':{url.port}'
    elif not isinstance(url.path, str) and len(url.path) > 1 and url.path[0] == '':
        text += '/.'
    text += path_text(url)
    text += '' if url.query is None else f'?{url.query}'
    return text + ('' if url.fragment is None else f'#{url.fragment}')


def url_of_path(path, is_folder=False):
    """The `file` URL of an absolute path, or None for any other path."""
    if not path.startswith('/'):
        return None
    parts = [part for part in path.split('/') if part not in ('', '.')]
    text = ''.join(f'/{"".join(chr(b) if b in UNRESERVED else f"%{b:02X}" for b in part.encode())}' for part in parts)
    return parse_url(f'file://{text}{"/" if is_folder or not parts else ""}')


def path_of_url(url):
    """The path of a `file` URL without a host; None for any other URL, and for a path that is not UTF-8."""
    if url.scheme != 'file' or url.host:
        return None
    try:
        return unquote_to_bytes(path_text(url)).decode()
    except UnicodeDecodeError:
        return None
