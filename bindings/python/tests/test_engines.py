"""Those who answer pieces: the order of what they return, processes that die, and errors."""

from __future__ import annotations

import contextlib
import logging
import os
import signal
import socket
import ssl
import time
import unittest
from argparse import Namespace
from importlib.util import find_spec
from pathlib import Path
from typing import Any, Callable, Generator, List, Optional, Set, Tuple
from unittest import mock

try:
    import pandas  # noqa: F401
except ImportError:
    raise unittest.SkipTest('pandas and numpy are not installed') from None

from sourcemap._tables import engines

from . import dying
from .test_release import Folder

PATIENCE = 240


def is_there(pid: int) -> bool:
    with contextlib.suppress(ProcessLookupError):
        os.kill(pid, 0)
        return True
    return False


class Alone(Folder):
    def test_the_order(self) -> None:
        run = engines.engine(Namespace(workers=1, dask=None), str(self.top), is_small=False)
        self.assertEqual(list(run(dying.an_error, self.top, iter(range(5)))), list(range(5)))

    def test_little_is_done_here(self) -> None:
        run = engines.engine(Namespace(workers=3, dask=None), str(self.top), is_small=True)
        self.assertEqual(list(run(dying.slowly, self.top, iter([0]))), [os.getpid()])

    def test_calls_that_ctrl_c_waits_for(self) -> None:
        done: List[int] = []

        def call(item: int) -> None:
            os.kill(os.getpid(), signal.SIGINT)
            done.append(item)

        self.addCleanup(signal.signal, signal.SIGINT, signal.signal(signal.SIGINT, signal.default_int_handler))
        with self.assertRaises(KeyboardInterrupt):
            engines._undisturbed(call)(3)
        self.assertEqual(done, [3])


@unittest.skipIf(find_spec('distributed') is None, 'distributed is not installed')
class Workers(Folder):
    def started(self, call: Callable[[Path, int], int], count: int,
                dask: Optional[str] = None) -> Generator[int, None, None]:
        run = engines.engine(Namespace(workers=3, dask=dask), str(self.top), is_small=False)
        answers: Generator[int, None, None] = run(call, self.top, iter(range(count)))
        self.addCleanup(answers.close)
        return answers

    def test_nothing_to_do(self) -> None:
        self.assertEqual(list(self.started(dying.always, 0)), [])

    def test_some_that_die(self) -> None:
        """What they had is asked of others."""
        self.assertEqual(list(self.started(dying.twice_a_number, 40)), list(range(0, 80, 2)))

    def test_some_that_always_die(self) -> None:
        found = []
        with mock.patch.dict(engines.OURS, {'distributed.scheduler.allowed-failures': 2}), \
                self.assertRaisesRegex(ChildProcessError, 'died again and again'):
            for each in self.started(dying.always, 40):
                found.append(each)
        self.assertEqual(found, [0, 1, 2])

    def test_errors(self) -> None:
        found = []
        with self.assertRaisesRegex(ValueError, '5 is none'):
            for each in self.started(dying.an_error, 40):
                found.append(each)
        self.assertEqual(found, list(range(5)))

    def test_closed_early(self) -> None:
        """What workers still do does not count, and they end."""
        answers = self.started(dying.slowly, 10)
        workers = {next(answers)}
        end = time.monotonic() + PATIENCE
        while len(workers) < 3:
            self.assertLess(time.monotonic(), end, 'a worker was not asked')
            time.sleep(0.01)
            workers |= {int(name) for name in os.listdir(self.top) if name.isdigit()}
        answers.close()
        while any(map(is_there, workers)):
            self.assertLess(time.monotonic(), end, 'a worker is still there')
            time.sleep(0.01)

    def listening(self, process: Any) -> Set[Tuple[str, int]]:
        return {each.laddr for each in process.connections() if each.status == 'LISTEN'}

    def test_where_they_listen(self) -> None:
        """On this machine alone."""
        import psutil

        answers = self.started(dying.an_error, 5)
        next(answers)
        this = psutil.Process()
        for process in this, *this.children(recursive=True):
            found = {host for host, port in self.listening(process)}
            self.assertLessEqual(found, {'127.0.0.1'})
            self.assertTrue(found or process != this)

    def test_who_may_ask_them(self) -> None:
        """Nobody who has not the key of this run."""
        import psutil

        answers = self.started(dying.an_error, 5)
        next(answers)
        context = ssl.create_default_context()
        context.check_hostname, context.verify_mode = False, ssl.CERT_NONE
        reasons = set()
        for address in self.listening(psutil.Process()):
            with socket.create_connection(address, 5) as connection, self.assertRaises(OSError) as caught:
                context.wrap_socket(connection).recv(1)
            reasons.add(getattr(caught.exception, 'reason', None))
        self.assertIn('TLSV13_ALERT_CERTIFICATE_REQUIRED', reasons)

    def test_nobody_is_there(self) -> None:
        """A cluster without workers, and one that ends."""
        from distributed import LocalCluster

        with LocalCluster(n_workers=0, threads_per_worker=1, processes=False, protocol='tcp',
                          dashboard_address=engines.HERE, worker_dashboard_address=engines.HERE,
                          silence_logs=logging.CRITICAL) as cluster:
            address = cluster.scheduler_address
            with mock.patch.object(engines, 'PATIENCE', 0.5), \
                    self.assertRaisesRegex(ChildProcessError, 'no worker is there'):
                list(self.started(dying.an_error, 1, address))
            cluster.scale(1)
            answers = self.started(dying.an_error, 40, address)
            self.assertEqual(next(answers), 0)
        with self.assertRaises(OSError):
            list(answers)


if __name__ == '__main__':
    unittest.main()
