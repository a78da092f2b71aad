"""A cluster of this machine, or one that runs."""
from __future__ import annotations

import contextlib
import importlib
import logging
import os
import signal
from multiprocessing import resource_tracker
from typing import Any, ContextManager, Dict, Iterable, Iterator, List, Optional

from .endings import Refused, Unfinished, reason_of

# A partition that ends its worker so often is taken to be the reason. It goes on in smaller parts, so nothing is lost where it
# wasn't.
_ALLOWED_FAILURES = 2
# of this process's own scheduler: what it writes down of each task is for looking for mistakes of its own
_LINES_OF_SCHEDULER = 1000
# (any port: another run may have the usual one)
_DASHBOARD = "127.0.0.1:0"

# of a cluster of its own
_SETTINGS = {
    "distributed.scheduler.allowed-failures": _ALLOWED_FAILURES,
    "distributed.scheduler.transition-log-length": _LINES_OF_SCHEDULER,
    "distributed.scheduler.events-log-length": _LINES_OF_SCHEDULER,
    # (a worker that ended comes again by itself. A cluster that waits for it gives it up where it ends once more meanwhile.)
    "distributed.deploy.lost-worker-timeout": "1000 days",
    # (so long a result is looked for at a worker that has ended, before another one finds it again)
    "distributed.comm.timeouts.connect": "10s",
    # (a large tile isn't a leak)
    "distributed.worker.memory.terminate": False,
    "distributed.worker.memory.pause": False,
    "distributed.worker.memory.spill": False,
    "distributed.worker.memory.target": False,
    # (what looks for mistakes of Dask's own: at which line of its program a worker is, a hundred times a second, and whether its loop
    # is late, fifty times. A run needs neither.)
    "distributed.worker.profile.interval": "1 day",
    "distributed.admin.tick.interval": "1s",
}

_INTERRUPTS = (signal.SIGINT, signal.SIGTERM)


class NoScheduler(Unfinished):
    """A scheduler that can't be reached."""


class NoCluster(Refused):
    """No address of a scheduler, or Dask that isn't installed."""


def default_workers() -> int:
    """One for each processor that this process may use."""
    return len(os.sched_getaffinity(0))


@contextlib.contextmanager
def _uninterrupted() -> Iterator[None]:
    """Interrupts wait until its end. What is started meanwhile, and by what was, is never interrupted: `preload` lets that end.

    A signal that this thread blocks goes to another thread of the process, for which Python calls the handler in this one all the
    same. So while it lasts the handlers only note that there was one.
    """
    noted: List[int] = []
    handlers: Dict[int, Any] = {}
    before = signal.pthread_sigmask(signal.SIG_BLOCK, _INTERRUPTS)
    try:
        for it in _INTERRUPTS:
            # (one that is ignored, as in a script's background, stays so)
            if callable(signal.getsignal(it)):
                handlers[it] = signal.signal(it, lambda number, _: noted.append(number))
        yield
    finally:
        # (what waited is noted here)
        signal.pthread_sigmask(signal.SIG_SETMASK, before)
        for number, handler in handlers.items():
            signal.signal(number, handler)
        if noted:
            raise KeyboardInterrupt


@contextlib.contextmanager
def _cluster_of(distributed: Any, workers: int) -> Iterator[Any]:
    """So many workers of this machine, which end with it. Neither the one nor the other is left half done.

    All listen on the loopback address alone: who reaches a port of theirs can run any program.
    """
    # (it lets interrupts through when it begins)
    resource_tracker.ensure_running()
    cluster = None
    try:
        with _uninterrupted():
            cluster = distributed.LocalCluster(
                n_workers=workers,
                threads_per_worker=1,
                host="127.0.0.1",
                dashboard_address=_DASHBOARD,
                # (without an address of its own a worker's is that of all networks)
                worker_dashboard_address=_DASHBOARD,
                silence_logs="CRITICAL",
                preload=[f"{__package__}.preload"],
            )
        yield cluster
    finally:
        if cluster is not None:
            with _uninterrupted():
                cluster.close()


def _expect_address(scheduler: str) -> None:
    """NoCluster where it is no address. (A client that was given none would complain when it goes.)"""
    addressing: Any = importlib.import_module("distributed.comm.addressing")
    registry: Any = importlib.import_module("distributed.comm.registry")
    try:
        scheme, place = addressing.parse_address(scheduler)
        registry.get_backend(scheme)
        addressing.parse_host_port(place)
    except ValueError:
        raise NoCluster(f"{scheduler} is no address of a scheduler, such as tcp://host:8786") from None


@contextlib.contextmanager
def client_of(scheduler: Optional[str], workers: int) -> Iterator[Any]:
    """A client of the scheduler at an address, or of a cluster with this many workers, which ends with the client."""
    # (read when Dask is imported, also by workers. What goes wrong with a run is in its one line.)
    os.environ.setdefault("DASK_LOGGING__DISTRIBUTED", "critical")
    try:
        with _uninterrupted():
            dask: Any = importlib.import_module("dask")
            distributed: Any = importlib.import_module("distributed")
        # (the one has a level of its own, and to the other Dask writes by mistake)
        for name in ("distributed.client", "asyncio"):
            logging.getLogger(name).setLevel(logging.CRITICAL)
    except ImportError as error:
        raise NoCluster(f"{error}: Debian has it as python3-distributed") from None
    # (of connections that end it writes pages, and a run says itself what came of it)
    logging.disable(logging.CRITICAL)
    with contextlib.ExitStack() as stack:
        if scheduler is None:
            stack.enter_context(dask.config.set(_SETTINGS))
            place: Any = stack.enter_context(_cluster_of(distributed, workers))
        else:
            _expect_address(scheduler)
            place = scheduler
        # (that of a cluster of its own is there at once; a scheduler that is silent may be waited for in vain)
        meanwhile: ContextManager[None] = _uninterrupted() if scheduler is None else contextlib.nullcontext()
        try:
            with meanwhile:
                client = stack.enter_context(distributed.Client(place, set_as_default=False))
        except OSError as error:
            raise NoScheduler(f"{scheduler}: {reason_of(error)}") from None
        yield client


def versions_of(client: Any, workers: Iterable[str]) -> Dict[str, str]:
    """The version of this package that each of these workers has, or why it can't be loaded there."""

    # (a function within a function is sent as its code, so that a worker without this package can answer)
    def version() -> str:
        try:
            import mvtgate
            import mvtgate.planet.work

            return mvtgate.version()
        except Exception as error:
            return f"none: {error}"

    answers = client.run(version, workers=list(workers), on_error="return")
    # (one that has gone meanwhile has no answer, and does no harm)
    return {worker: it for worker, it in answers.items() if isinstance(it, str)}
