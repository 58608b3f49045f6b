"""Who answers pieces: this process, or workers of Dask, which are processes of this machine or a cluster elsewhere."""
from __future__ import annotations

import argparse
import contextlib
import logging
import multiprocessing
import os
import signal
import threading
import uuid
from collections import deque
from concurrent.futures import CancelledError
from functools import partial
from itertools import islice
from multiprocessing import forkserver
from typing import Any, Callable, Deque, Dict, Generator, Iterator, List, TypeVar

from .._needed import need

# How many pieces are asked for before the first of them is taken, for each worker.
AHEAD = 4
# How often workers of this machine may die with one piece.
MOST_DEATHS = 10
AGAIN = 'workers died again and again with the same rows'
# After so many seconds with one piece it is looked whether anybody can answer it.
PATIENCE = 600

# What ends the program.
ENDS = (signal.SIGINT, signal.SIGTERM)

# What a Dask cluster would do else: look up for each piece the text of the code that asks for it.
UNUSED = {'distributed.diagnostics.computations.ignore-modules': ['']}
# The cluster of this machine.
OURS = {
    # it is waited for a worker that died until it has started again. By itself the cluster gives it up after 15 seconds, in
    # which a machine with much to do may not start any
    'distributed.scheduler.allowed-failures': MOST_DEATHS, 'distributed.deploy.lost-worker-timeout': '1 hour',
    # they have imported what they need
    'distributed.worker.multiprocessing-method': 'forkserver',
    # else a piece at the end may wait for a worker that has another one, while others have none
    'distributed.scheduler.worker-saturation': 1.0,
    # nobody looks at what these find. The first two take 3 seconds of processors in 10 seconds of 4 workers
    'distributed.worker.profile.enabled': False, 'distributed.admin.tick.interval': '1 hour',
    'distributed.admin.system-monitor.interval': '1 hour'}
# It exchanges no data between workers. What does so prints an error if a worker ends while it starts.
NONE: Dict[str, Any] = {}
# Where its workers say what they do: at any port of this machine alone. Else it would be on each network.
HERE = '127.0.0.1:0'

Job = TypeVar('Job')
Item = TypeVar('Item')
Done = TypeVar('Done')
# called with a function, its first argument, and items: calls the function with each item, and yields what it returned in
# the order of the items. Closing it ends what it started
Run = Callable[[Callable[[Any, Any], Any], Any, Iterator[Any]], Generator[Any, None, None]]


def prepare(arguments: argparse.Namespace) -> None:
    """Starts the process that workers are forked from, if there are to be some. It imports what they need while this
    process does."""
    with contextlib.suppress(OSError):
        is_small = os.path.getsize(arguments.frames) <= arguments.partition
        if arguments.dask is None and _workers(arguments) > 1 and not is_small:
            _start_to_fork()
            need('distributed')
            need('cryptography')


def _start_to_fork() -> None:
    """What is forked ignores Ctrl-C, since it ends with this process. It says nothing: what goes wrong with a piece is
    raised here, and the rest, as of a worker that ends while it starts, is no error."""
    multiprocessing.get_context('forkserver').set_forkserver_preload([f'{__package__}.forked'])
    with contextlib.ExitStack() as stack:
        if threading.current_thread() is threading.main_thread():
            stack.callback(signal.signal, signal.SIGINT, signal.signal(signal.SIGINT, signal.SIG_IGN))
        with contextlib.suppress(OSError):  # it is closed
            said = os.dup(2)
            stack.callback(os.close, said)
            stack.callback(os.dup2, said, 2)
            with open(os.devnull, 'wb') as nothing:
                os.dup2(nothing.fileno(), 2)
        forkserver.ensure_running()


def engine(arguments: argparse.Namespace, folder: str, is_small: bool) -> Run:
    """Those who answer. If there is little to do it is this process, unless a cluster is named. `folder` is for what
    they write."""
    if arguments.dask is not None:
        return partial(_by_dask, arguments.dask, None)
    workers = _workers(arguments)
    if workers == 1 or is_small:
        return _in_turn
    return partial(_by_processes, workers, folder)


def _workers(arguments: argparse.Namespace) -> int:
    if arguments.workers is not None:
        return int(arguments.workers)
    try:
        return len(os.sched_getaffinity(0))
    except AttributeError:
        return os.cpu_count() or 1


def _in_turn(call: Callable[[Job, Item], Done], job: Job, items: Iterator[Item]) -> Generator[Done, None, None]:
    return (call(job, item) for item in items)


def _by_processes(workers: int, folder: str, call: Callable[[Job, Item], Done], job: Job,
                  items: Iterator[Item]) -> Generator[Done, None, None]:
    """By a cluster of processes of this machine. Ctrl-C waits until it has started, and then ends it. Who connects to it
    can run what he likes, so only processes that have the key of this run can."""
    distributed = need('distributed')
    _be_quiet()
    _start_to_fork()
    need('cryptography')
    security = distributed.Security.temporary()
    with need('dask').config.set(OURS), contextlib.ExitStack() as stack:
        def start() -> str:
            cluster = stack.enter_context(distributed.LocalCluster(
                n_workers=workers, threads_per_worker=1, processes=True, protocol='tls', security=security,
                memory_limit=0, local_directory=folder, dashboard_address=HERE, worker_dashboard_address=HERE,
                scheduler_kwargs={'dashboard': False}, silence_logs=logging.CRITICAL, extensions=NONE))
            return str(cluster.scheduler_address)

        try:
            address = _undisturbed(start)()
        except Exception as error:
            raise ChildProcessError(f'workers do not start: {_first(error)}') from error
        yield from _by_dask(address, security, call, job, items)


def _by_dask(address: str, security: Any, call: Callable[[Job, Item], Done], job: Job,
             items: Iterator[Item]) -> Generator[Done, None, None]:
    distributed = need('distributed')
    _be_quiet()
    run = uuid.uuid4().hex
    with need('dask').config.set(UNUSED), distributed.Client(
            address, security=security, set_as_default=False) as client:
        most = AHEAD * max(4, sum(client.nthreads().values()))
        submit = _undisturbed(partial(client.submit, call, job, pure=False))
        futures = (submit(item, key=f'sourcemap-{run}-{number}') for number, item in enumerate(items))
        waiting: Deque[Any] = deque(islice(futures, most))
        try:
            while waiting:
                yield _result(client, waiting.popleft())
                waiting.extend(islice(futures, 1))
        except distributed.KilledWorker as error:
            raise ChildProcessError(f'{AGAIN}: {error}') from error
        except CancelledError as error:
            raise ConnectionError(f'the Dask cluster at {address} has gone') from error


def _be_quiet() -> None:
    """Dask prints nothing that is no error of ours, as a connection that was slow to close, or that is raised too."""
    for name in 'asyncio', 'distributed.client':
        logging.getLogger(name).setLevel(logging.CRITICAL)


def _first(error: BaseException) -> BaseException:
    """What led to an error."""
    while (before := error.__cause__ or error.__context__) is not None:
        error = before
    return error


def _result(client: Any, future: Any) -> Any:
    """What a worker returned. `ChildProcessError` if there is none that could."""
    while True:
        try:
            return future.result(PATIENCE)
        except need('distributed').TimeoutError:
            if future.done():
                raise
            if not client.nthreads():
                raise ChildProcessError('no worker is there, and none comes') from None


def _undisturbed(call: Callable[..., Done]) -> Callable[..., Done]:
    """A call that Ctrl-C and SIGTERM wait for. A future that is half made when it goes prints an error."""
    def wait(*arguments: Any, **keys: Any) -> Done:
        caught: List[int] = []
        before = {each: signal.signal(each, lambda number, frame: caught.append(number)) for each in ENDS}
        try:
            return call(*arguments, **keys)
        finally:
            for each, handler in before.items():
                signal.signal(each, handler)
            for number in caught:
                signal.raise_signal(number)

    return wait if threading.current_thread() is threading.main_thread() else call
