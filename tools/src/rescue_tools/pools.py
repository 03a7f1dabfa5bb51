"""Where cases are judged: on this machine's processors, or on a Dask cluster."""

from __future__ import annotations

import concurrent.futures
import importlib
import threading
from collections.abc import Iterator
from typing import Any

from .judge import Case, Comparison, Verdict, judge
from .refusal import RefusalError
from .runs import Runner, Setting
from .store import Key

Work = list[tuple[Key, Case]]

_runners: dict[Setting, Runner] = {}
_lock = threading.Lock()


def judged(setting: Setting, comparison: Comparison, case: Case) -> Verdict:
    """What becomes of a case; each process keeps the runs that it has made."""
    with _lock:
        runner = _runners.setdefault(setting, Runner(setting))
    return judge(runner, comparison, case)


def on_this_machine(
    setting: Setting, comparison: Comparison, work: Work, jobs: int
) -> Iterator[tuple[Key, Verdict]]:
    """The verdicts as they come, by so many processes at a time."""
    pool = concurrent.futures.ThreadPoolExecutor(jobs)
    try:
        waiting = {pool.submit(judged, setting, comparison, case): key for key, case in work}
        for done in concurrent.futures.as_completed(waiting):
            yield waiting[done], done.result()
    finally:
        pool.shutdown(wait=True, cancel_futures=True)


def on_cluster(
    setting: Setting, comparison: Comparison, work: Work, address: str
) -> Iterator[tuple[Key, Verdict]]:
    """The verdicts as they come, from the workers of a Dask scheduler. The guest goes to each
    worker once."""
    try:
        distributed: Any = importlib.import_module("distributed")
    except ImportError as error:
        raise RefusalError(
            "--scheduler takes the library 'distributed': apt-get install python3-distributed, "
            "or pip install distributed"
        ) from error
    try:
        client: Any = distributed.Client(address, timeout=10)
    except (OSError, ValueError, TimeoutError) as error:
        raise RefusalError(f"scheduler {address}: no answer ({error or 'timeout'})") from error
    with client:
        shared = client.scatter(setting, broadcast=True)
        futures = [client.submit(judged, shared, comparison, case, pure=False) for _, case in work]
        keys = {future.key: key for future, (key, _) in zip(futures, work, strict=True)}
        try:
            for done in distributed.as_completed(futures):
                yield keys[done.key], done.result()
        finally:
            client.cancel(futures)
