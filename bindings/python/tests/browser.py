"""Headless Chromium, driven by its debugging protocol over two pipes."""

from __future__ import annotations

import base64
import fcntl
import json
import os
import select
import shutil
import subprocess
import tempfile
import time
from pathlib import Path
from typing import Any, Dict, List, Optional, Tuple

PROGRAMS = ('chromium', 'chromium-browser', 'google-chrome')
# A loaded machine may take long to start the browser.
TIMEOUT = 300.0


def find_browser() -> Optional[str]:
    """The path of the browser, or None."""
    return next((path for path in (shutil.which(name) for name in PROGRAMS) if path is not None), None)


class BrowserError(Exception):
    """The browser refused a command, or a script threw."""


class Browser:
    """A browser with one page. Commands go to its descriptor 3 and answers come from 4, each ended by a zero byte."""

    def __init__(self, program: str, *, width: int = 1200, height: int = 700) -> None:
        self._folder = tempfile.mkdtemp()
        self._buffer = b''
        self._last = 0
        self._session: Optional[str] = None
        self.errors: List[str] = []
        self._process = self._start(program, width, height)
        target = self.call('Target.createTarget', url='about:blank')['targetId']
        self._session = self.call('Target.attachToTarget', targetId=target, flatten=True)['sessionId']
        self.call('Page.enable')
        self.call('Runtime.enable')
        self.resize(width, height)
        self.use_colours('light')

    @staticmethod
    def _pipe() -> Tuple[int, int]:
        """A pipe whose descriptors are not 3 and 4."""
        ends = os.pipe()
        reading, writing = (fcntl.fcntl(end, fcntl.F_DUPFD_CLOEXEC, 10) for end in ends)
        for end in ends:
            os.close(end)
        return reading, writing

    def _start(self, program: str, width: int, height: int) -> subprocess.Popen[bytes]:
        commands, self._to = self._pipe()
        self._from, answers = self._pipe()
        words = [
            program, '--headless=new', '--remote-debugging-pipe', '--no-first-run', '--disable-gpu',
            '--disable-dev-shm-usage', '--disable-extensions', f'--user-data-dir={self._folder}',
            f'--window-size={width},{height}', 'about:blank',
        ]
        if os.geteuid() == 0:
            words.insert(1, '--no-sandbox')
        # the shell moves the pipes to the descriptors that the browser expects; sh takes no number of two digits
        process = subprocess.Popen(
            ['bash', '-c', f'exec "$0" "$@" 3<&{commands} 4>&{answers}', *words],
            stdin=subprocess.DEVNULL, stdout=subprocess.DEVNULL, stderr=subprocess.DEVNULL,
            pass_fds=(commands, answers),
        )
        os.close(commands)
        os.close(answers)
        return process

    def call(self, method: str, **parameters: Any) -> Dict[str, Any]:
        """Sends a command of the protocol, and returns its answer."""
        self._last += 1
        message: Dict[str, Any] = {'id': self._last, 'method': method, 'params': parameters}
        if self._session is not None:
            message['sessionId'] = self._session
        os.write(self._to, json.dumps(message).encode() + b'\0')
        while True:
            answer = self._read()
            if answer.get('id') == self._last:
                break
            self._note(answer)
        if 'error' in answer:
            raise BrowserError(f'{method}: {answer["error"]["message"]}')
        result = answer['result']
        assert isinstance(result, dict)
        return result

    def _read(self) -> Dict[str, Any]:
        end = time.monotonic() + TIMEOUT
        while b'\0' not in self._buffer:
            ready, _, _ = select.select([self._from], [], [], max(0.0, end - time.monotonic()))
            piece = os.read(self._from, 1 << 20) if ready else b''
            if not piece:
                raise BrowserError('the browser does not answer' if not ready else 'the browser ended')
            self._buffer += piece
        text, _, self._buffer = self._buffer.partition(b'\0')
        message = json.loads(text)
        assert isinstance(message, dict)
        return message

    def _note(self, event: Dict[str, Any]) -> None:
        """Keeps the errors of the page's scripts."""
        if event.get('method') == 'Runtime.exceptionThrown':
            self.errors.append(json.dumps(event['params']['exceptionDetails'])[:500])

    def open(self, path: Path) -> None:
        """Opens a file and waits until it is loaded."""
        self.call('Page.navigate', url=path.resolve().as_uri())
        self.wait_until('document.readyState === "complete" && location.protocol === "file:"')

    def resize(self, width: int, height: int) -> None:
        """Sets the size of the page."""
        size = {'width': width, 'height': height, 'deviceScaleFactor': 1, 'mobile': False}
        self.call('Emulation.setDeviceMetricsOverride', **size)

    def use_colours(self, scheme: str) -> None:
        """Makes the page prefer the colours `light` or `dark`."""
        self.call('Emulation.setEmulatedMedia', features=[{'name': 'prefers-color-scheme', 'value': scheme}])

    def evaluate(self, expression: str) -> Any:
        """The value of an expression of JavaScript in the page, as JSON has it."""
        answer = self.call('Runtime.evaluate', expression=expression, returnByValue=True, awaitPromise=True)
        if 'exceptionDetails' in answer:
            raise BrowserError(json.dumps(answer['exceptionDetails'])[:500])
        return answer['result'].get('value')

    def wait_until(self, expression: str, timeout: float = TIMEOUT) -> None:
        """Waits until an expression is true."""
        end = time.monotonic() + timeout
        while not self.evaluate(f'Boolean({expression})'):
            if time.monotonic() > end:
                raise BrowserError(f'it did not come to be: {expression}')
            time.sleep(0.02)

    def move(self, position: Tuple[float, float]) -> None:
        """Moves the mouse."""
        self.call('Input.dispatchMouseEvent', type='mouseMoved', x=position[0], y=position[1])

    def click(self, position: Tuple[float, float]) -> None:
        """Clicks with the left button."""
        self.move(position)
        for kind in ('mousePressed', 'mouseReleased'):
            self.call('Input.dispatchMouseEvent', type=kind, x=position[0], y=position[1], button='left', clickCount=1)

    def press(self, key: str) -> None:
        """Presses and releases a key by its name."""
        text = {'Enter': '\r'}.get(key, key if len(key) == 1 else '')
        codes = {'Enter': 13, 'Escape': 27, 'End': 35, 'Home': 36, 'ArrowLeft': 37, 'ArrowUp': 38, 'ArrowRight': 39,
                 'ArrowDown': 40}
        code = codes.get(key, ord(key[0]))
        self.call('Input.dispatchKeyEvent', type='keyDown', key=key, text=text, windowsVirtualKeyCode=code)
        self.call('Input.dispatchKeyEvent', type='keyUp', key=key, windowsVirtualKeyCode=code)

    def type(self, text: str) -> None:
        """Types into the element that has the focus."""
        self.call('Input.insertText', text=text)

    def screenshot(self, path: Path) -> None:
        """Writes a PNG of the visible part of the page."""
        path.write_bytes(base64.b64decode(self.call('Page.captureScreenshot', format='png')['data']))

    def close(self) -> None:
        """Ends the browser that was started here."""
        self._session = None
        try:
            self.call('Browser.close')
            self._process.wait(TIMEOUT)
        except (BrowserError, OSError, subprocess.TimeoutExpired):
            self._process.kill()
            self._process.wait()
        os.close(self._to)
        os.close(self._from)
        shutil.rmtree(self._folder, ignore_errors=True)
