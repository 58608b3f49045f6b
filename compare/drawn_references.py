"""Random texts with references to maps, random paths, and random JSON texts that may be maps."""
from references import KEYS

MARKS = ['//# sourceMappingURL=', '//@ sourceMappingURL=']
NEAR_MARKS = ['// # sourceMappingURL=', '//#sourceMappingURL=', '//# sourcemappingurl=', '/*# sourceMappingURL=', '//# sourceMappingURL ',
              ' //# sourceMappingURL=', '\t//@ sourceMappingURL=', '//# sourceURL=', '\ufeff//# sourceMappingURL=', '/']
CODE = ['', 'var a = 1;', '"use strict";', '/* über 👌 */', 'a\u2028b', 'x' * 300, '}', '// sourceMappingURL=x']
NO_TEXT = [b'\xff', b'a\xc3', b'\xed\xa0\x80', b'\xf4\x90\x80\x80', b'\xc0\xaf', b'//# sourceMappingURL=\xff', b'//@ sourceMappingURL=a\x80b']
SPACES = ['', '', '', ' ', '\t', '\r', '  \x0c', '\xa0', '\u2028', '\x1f', '\u200b']
URLS = [
    '', 'a', 'a.js.map', './a.js.map', '../a.js.map', '../../../../a', 'b/../c/./d.map', 'a//b.map', '..', '.', '/', '/m/x.map', '//y.com/x.map',
    '///x.map', '\\x\\y.map', 'a.map?v=1', 'a.map#top', '?v=2', '#f', '?', '#', 'a b.map', 'ü/é.map', '👌.map', '%C3%BC.map', 'a%20b.map', '%ff.map',
    '%2e%2e/up.map', '.%2E/up.map', '%zz', '100%', "a'b?c'd", 'x^y.map', 'a|b.map', '{a}`"<>.map', './a:', './b|', 'a:', 'C:/x.map', '/D:/x.map',
    '/D:', 'D|/x.map', 'http://y.com/x.map', 'http://y.com', 'HTTP://Y.COM:80/../x', 'http:x.map', 'http:/x.map', 'http:', 'https://u:p@y.com:8443/x?y#z',
    'http://localhost/x.map', 'https:///x.map', 'http://', 'http://y.com:99999/', 'http://a b/', 'file:x.map', 'file:/x.map', 'file:///x.map',
    'file://localhost/x.map', 'file://host/x.map', 'file:', 'file:///C|/x', 'file:////x', 'webpack:///./src/a.js', 'webpack://pack/../a', 'x:/..//y',
    'blob:http://y.com/1', 'javascript:void 0', 'mailto:a@b', 'data:', 'data:application/json;base64,e30=', 'data:application/json;charset=utf-8;base64,eyJtYXBwaW5ncyI6IiJ9',
    'data:application/json;charset=utf8;base64,eyJzZWN0aW9ucyI6W119', 'data:application/json,{}', 'data:text/plain;base64,e30=', 'data:application/json;base64,e30',
    'DATA:application/json;base64,e30=', 'Data:x', ' data:x', 'a\tb', 'a\\..\\b', 'x' * 5000,
]
BASES = [
    'http://x.com/m/a.js', 'https://x.com:8443/a/b/c.js?q=1#f', 'http://x.com', 'HTTP://X.COM/%7Ea/../b.js', ' http://x.com/a b.js ', 'http://u:p@x.com/',
    'file:///m/a.js', 'file:///C:/m/a.js', 'file://host/m/a.js', 'file:///', 'a.js', '', '/m/a.js', 'webpack:///src/a.js', 'foo:/a/b', 'foo://h/a/b',
    'foo://h', 'data:text/plain,x', 'blob:x', 'http://', 'http://x.com:99999/', 'http://x.com/^/a.js', 'ftp://x.com/a/../../b',
]
PATHS = [
    '/m/a.js', '/a.js', '/', '', 'm/a.js', './a.js', '../a.js', 'C:/m/a.js', '/m/', '/m/..', '/m/../a.js', '/m/n/../../../a.js', '/../a.js', '/..', '/m/./a.js',
    '//m//n/a.js', '/a b/c d.js', '/ü/👌.js', '/100%/a.js', '/%41/%2e%2e/a.js', '/m/a?b#c.js', '/m\\n/a.js', '/C:/a.js', '/C:/m/a.js', '/m/|/a.js', '/.../a.js',
    '/m/a.js ', '/\x01\t/a.js', '/^/a.js', "/'{}`\"<>/a.js", '/~m_-./a.js', '/data:x/a.js',
]
PARTS = ['', '', '.', '..', 'a', 'b', 'c', 'ab', 'a b', 'ü', 'C:']
ROOTS = ['/', '/', '\\', 'C:/', 'C:\\', 'd:/', '', '', './']
VALUES = ['null', '3', '-3', '0', '-0', '3.0', '1e2', '1E999', '4294967295', '4294967296', '99999999999999999999', 'true', '""', '"x"', '"\\ud800"', '"\\u0041"', '"\\x"',
          '[]', '["a.js"]', '{}', '{"a":{}}', '[' * 100 + ']' * 100, '[' * 130 + ']' * 130, '"\xff"', '"\x01"', 'nul', 'NaN', '01', '1.', '"\xc3\xbc"', '[1,]']
HEADERS = ['', '', '', '', ")]}'\n", ')]}\r\n', ')]}\rx\n', "')\n\n", ')', ']\r', ' ', '\xef\xbb\xbf', '}\n)\n']


def drawn_text(draws):
    """The bytes of a text of a few lines. Most texts have one or two references, or lines that are almost references.
    Some texts have a line that is not UTF-8."""
    lines = [draws.choice(CODE).encode() for _ in range(draws.randrange(6))]
    for _ in range(draws.choice([0, 1, 1, 1, 2, 2])):
        mark = draws.choice(MARKS if draws.randrange(5) else NEAR_MARKS)
        front = draws.choice(CODE) if draws.randrange(8) == 0 else ''
        line = front + mark + draws.choice(SPACES) + draws.choice(URLS) + draws.choice(SPACES)
        lines.insert(draws.randrange(len(lines) + 1), line.encode())
    if draws.randrange(4) == 0:
        lines.insert(draws.randrange(len(lines) + 1), draws.choice(NO_TEXT))
    if draws.randrange(60) == 0:
        lines.insert(draws.randrange(len(lines) + 1), b'y' * draws.randrange(1 << 17))
    end = draws.choice([b'\n', b'\n', b'\r\n', b'\r', b'\n\r'])
    return end.join(lines) + draws.choice([b'', end])


def drawn_path(draws):
    return draws.choice(ROOTS) + ''.join(draws.choice(PARTS) + draws.choice('///\\') for _ in range(draws.randrange(5))) + draws.choice(PARTS)


def drawn_record(draws):
    """A JSON text that may be a map, with a character for each byte. Keys may be missing or doubled, and values null or
    of a wrong type. Some texts are cut, and some are arrays."""
    values = {'version': '3', 'file': '"a.js"', 'sourceRoot': '""', 'mappings': '"AAAA"', 'sections': '[]'}
    keys = draws.sample([*KEYS, 'x_more', 'Version'], draws.randrange(1, 8))
    keys += draws.sample(keys, draws.randrange(8) == 0)
    fields = [(key, draws.choice(VALUES) if draws.randrange(6) == 0 else values.get(key, '[]')) for key in keys]
    text = ','.join(f'"{key.replace("s", chr(92) + "u0073") if draws.randrange(12) == 0 else key}":{value}' for key, value in fields)
    text = draws.choice(HEADERS) + '{' + text + '}' + draws.choice(['', '', '', '\n', ' x', '\0'])
    if draws.randrange(20) == 0:
        text = '[' + ','.join(draws.choice(VALUES[:12]) for _ in range(draws.choice([0, 1, 7, 8, 8, 9]))) + ']'
    return text[:draws.randrange(len(text))] if draws.randrange(20) == 0 else text
