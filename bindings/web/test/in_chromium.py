#!/usr/bin/env python3
"""Runs the module in Chromium.

    in_chromium.py same OUT..       compares the answers with those of the C library: the files that `native` writes
    in_chromium.py speed FILE..     times beside @jridgewell/trace-mapping: a compiled map FILE.smc of FILE.map each

Prints a line for each map. The status is 1 if an answer differs, 3 without Chromium.
"""
import functools
import http.server
import json
import sys
import threading
import time
from pathlib import Path

HERE = Path(__file__).resolve().parent
WEB = HERE.parent
sys.path.insert(0, str(WEB.parent / 'python'))
from tests.browser import Browser, BrowserError, find_browser  # noqa: E402

MINUTES = 30
PEERS = Path('/usr/share/nodejs')


class Server(http.server.ThreadingHTTPServer):
    """Serves `bindings/web`, below /files any file by its path, and below /nodejs Debian's modules of Node."""


class Handler(http.server.SimpleHTTPRequestHandler):
    extensions_map = {'.js': 'text/javascript', '.mjs': 'text/javascript', '.wasm': 'application/wasm', '.html': 'text/html',
                      '': 'application/octet-stream'}

    def translate_path(self, path: str) -> str:
        if path.startswith('/files/'):
            return path[len('/files'):]
        if path.startswith('/nodejs/'):
            return str(PEERS) + path[len('/nodejs'):]
        return super().translate_path(path)

    def end_headers(self) -> None:
        # the clock of a page that no other can reach has steps of 5 µs in place of 100
        self.send_header('Cross-Origin-Opener-Policy', 'same-origin')
        self.send_header('Cross-Origin-Embedder-Policy', 'require-corp')
        super().end_headers()

    def log_message(self, *words: object) -> None:
        pass


def serve() -> Server:
    server = Server(('127.0.0.1', 0), functools.partial(Handler, directory=str(WEB)))
    threading.Thread(target=server.serve_forever, daemon=True).start()
    return server


def run(browser: Browser, script: str) -> object:
    """The value of an asynchronous script, which may take minutes."""
    browser.evaluate('window.ended = null; void (async () => { %s })().then('
                     '(value) => { window.ended = {value: value ?? null}; }, (error) => { window.ended = {error: String(error.stack)}; })'
                     % script)
    end = time.monotonic() + 60 * MINUTES
    while time.monotonic() < end:
        ended = browser.evaluate('window.ended')
        if ended is not None:
            if 'error' in ended:
                raise BrowserError(ended['error'])
            return ended['value']
        time.sleep(0.2)
    raise BrowserError(f'no answer in {MINUTES} minutes')


SAME = '''
    const { CompiledMap } = await import('/out/sourcemap.js');
    const { compare } = await import('/test/same.js');
    const read = async (end) => new Uint8Array(await (await fetch(%s + '.' + end)).arrayBuffer());
    return compare(CompiledMap, read);
'''


def same(browser: Browser, outs: list) -> bool:
    alike = True
    for out in outs:
        try:
            count = run(browser, SAME % json.dumps(f'/files{Path(out).resolve()}'))
            print(f'{out}: {count} positions alike', flush=True)
        except BrowserError as error:
            alike = False
            print(f'{out}: {error}', flush=True)
    return alike


def speed(browser: Browser, files: list) -> bool:
    for file in files:
        script = '''
            const { speed } = await import('/test/speed.js');
            return speed(%s);
        ''' % json.dumps(f'/files{Path(file).resolve()}')
        print(f'{file}: {json.dumps(run(browser, script))}', flush=True)
    return True


def main(words: list) -> int:
    if not words or words[0] not in ('same', 'speed'):
        print(__doc__)
        return 2
    program = find_browser()
    if program is None:
        print('no Chromium')
        return 3
    server, browser = serve(), Browser(program)
    try:
        browser.call('Page.navigate', url=f'http://127.0.0.1:{server.server_address[1]}/test/page.html')
        browser.wait_until('document.readyState === "complete" && location.protocol === "http:"')
        return 0 if {'same': same, 'speed': speed}[words[0]](browser, words[1:]) else 1
    finally:
        browser.close()
        server.shutdown()


if __name__ == '__main__':
    sys.exit(main(sys.argv[1:]))
