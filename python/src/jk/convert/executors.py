"""Files converted by an executor, of `concurrent.futures` or of a Dask cluster, on this machine or on others."""
from __future__ import annotations

from concurrent.futures import FIRST_COMPLETED, CancelledError, Executor, Future, wait
from typing import TYPE_CHECKING, Any, Dict, Generator, Iterator, Tuple

from .._needs import what_to_do
from .images import Refused
from .one import Done, Job, done

if TYPE_CHECKING:
    from .workers import Stop

#: So many files are given out and not yet done, so that new machines find some.
MOST = 128
#: How often it is looked whether it is asked to end, in seconds.
SOON = 0.5


def by_executor(jobs: Iterator[Job], executor: Executor, stop: "Stop") -> Generator[Done, None, None]:
    """Converts files by an executor, as they come. When it is asked to end, those that aren't begun are taken back."""
    waiting: Dict["Future[Done]", Job] = {}
    try:
        while True:
            while len(waiting) < MOST and not stop.is_asked:
                job = next(jobs, None)
                if job is None:
                    break
                try:
                    waiting[executor.submit(done, job)] = job
                except RuntimeError as why:
                    yield Done(job, refused=f"the executor takes no more: {why}")
            if not waiting:
                return
            ready, _ = wait(waiting, SOON, FIRST_COMPLETED)
            for future in ready:
                yield _of(future, waiting.pop(future))
            if stop.is_asked:
                for future in [it for it in waiting if it.cancel()]:
                    del waiting[future]
    finally:
        for future in waiting:
            future.cancel()


def _of(future: "Future[Done]", job: Job) -> Done:
    """What became of a file; also where whoever converted it has ended."""
    try:
        found = future.result()
        return Done(job, found.rows, found.refused, found.is_passed)
    except CancelledError:
        return Done(job, refused="it was taken back before it was converted")
    except Exception as why:
        return Done(job, refused=f"whoever converted it ended: {type(why).__name__}: {why}")


def cluster(address: str) -> Tuple[Any, Executor]:
    """The client of a Dask cluster, by its scheduler's address, and an executor that gives it files. What a machine had when
    it was lost is given to another one. Refused: there is none, or one of its machines has another jk."""
    try:
        from distributed import Client
    except ImportError as error:
        raise Refused(what_to_do(error) or str(error)) from error
    make: Any = Client
    try:
        client: Any = make(address, timeout=10, set_as_default=False)
    except (OSError, ValueError) as why:
        raise Refused(f"{address}: there is no Dask scheduler: {why}") from why
    try:
        others = {where: found for where, found in client.run(version).items() if found != version()}
    except Exception as why:
        client.close()
        raise Refused(f"{address}: a machine there can't run jk: {type(why).__name__}: {why}") from why
    if others:
        client.close()
        told = ", ".join(f"{where} has jk {it}" for where, it in others.items())
        raise Refused(f"{address}: {told}, and here is {version()}")
    return client, client.get_executor(pure=False, retries=5)


def version() -> str:
    """The version of the package that converts."""
    import jk
    return jk.__version__
