"""Versions of a graph on the workers of a Dask cluster, and runs on them."""
import collections
import os
import uuid
import dask
import distributed
import numpy as np
from gsnap_worker import Range, commit, cut_anew, listed, load, save
from runs import Run

SLICE = 1 << 22  # entries of a commit that a worker takes at a time
AGE = 64  # tasks that make a part, after which it is written to a file
FIXED = 150 << 20  # bytes of a worker that has nothing

# A version: the bounds of its ranges, the tiles of each range, by how many tasks they are made, and how many entries made the version.
Version = collections.namedtuple("Version", "cuts parts ages size")

class Failed(Exception): """What the cluster cannot do, and the exit status that says so."""

class Dask:
    """The workers of a scheduler, or workers that are started here."""
    lost = (OSError, distributed.KilledWorker, distributed.CancelledError, ValueError)

    def __init__(self, scheduler, workers, memory, folder=None):
        sizes = {"MALLOC_TRIM_THRESHOLD_": str(1 << 26), "MALLOC_MMAP_THRESHOLD_": str(1 << 25), "OMP_NUM_THREADS": "1"}
        settings = {"distributed.nanny.pre-spawn-environ": sizes, "distributed.scheduler.allowed-failures": 2, "temporary-directory": folder}
        dask.config.set(settings | {f"distributed.worker.memory.{it}": False for it in ("target", "spill", "pause")})
        try:
            at = scheduler or distributed.LocalCluster(n_workers=workers, threads_per_worker=1, memory_limit=memory, dashboard_address=":0", silence_logs=50)
            self.client = distributed.Client(at, timeout=3, direct_to_workers=True)
            self.client.wait_for_workers(1, timeout=4)
        except OSError as error:
            raise Failed(f"no scheduler with a worker answers at {scheduler}: {error}", 7) from None
        self.client.upload_file(os.path.join(os.path.dirname(os.path.realpath(__file__)), "gsnap_worker.py"))
        known = self.client.scheduler_info()["workers"].values()
        self.workers, self.limit, self.actors = len(known), min(it["memory_limit"] or float("inf") for it in known), []

    def submit(self, function, *args):
        return self.client.submit(function, *args, pure=False)

    def results(self, futures):
        return self.client.gather(list(futures))

    def start(self, ranges):
        self.actors = [self.client.submit(Range, *it, actor=True, pure=False) for it in ranges]
        return [it.result().call for it in self.actors]

    def end(self):
        for it in self.actors:
            it.release()
        self.actors = []

class Graph:
    """Versions of a graph, each a Version. What is committed is in a log, a file in a folder that all workers see."""
    def __init__(self, cluster, folder, limit=1 << 17, push=16):
        self.cluster, self.folder, self.limit, self.push = cluster, folder, limit, push
        self.log, self.written = open(f"{folder}/log", "wb", buffering=0), 0

    def commit(self, version, n, entries):
        """Returns the version with n vertices after entries. One that is mostly new gets ranges that its edges are spread over evenly."""
        cuts, parts, ages = [*version.cuts[:-1], n], list(version.parts), list(version.ages)
        if len(entries) > 2 * version.size:
            cuts = cuts_of(entries["v"], n, self.cluster.workers)
            parts = [self.cluster.submit(cut_anew, *it, self.limit, *parts) if version.size else () for it in zip(cuts, cuts[1:])]
            ages = [AGE] * len(parts)
        for index, (low, high) in enumerate(zip(cuts, cuts[1:])):
            here = entries[(entries["v"] >= low) & (entries["v"] < high)]
            for begin in range(0, len(here), SLICE):
                parts[index] = self.with_entries(parts[index], here[begin : begin + SLICE])
                ages[index] += 1
            if ages[index] > AGE:
                path = self.cluster.submit(save, parts[index], f"{self.folder}/{uuid.uuid4().hex}")
                parts[index], ages[index] = self.cluster.submit(load, *self.tried(lambda: self.cluster.results([path]))), 0
        return Version(cuts, parts, ages, version.size + len(entries))

    def with_entries(self, part, entries):
        self.log.write(entries.tobytes())
        begin, self.written = self.written, self.written + len(entries)
        return self.cluster.submit(commit, part, self.log.name, begin, len(entries), self.limit)

    def tried(self, work):
        """Does work, which begins anew if what it needs was lost with a worker, three times in all."""
        for _ in range(3):
            try:
                return work()
            except self.cluster.lost as error:
                if isinstance(error, ValueError) and "lost" not in str(error):
                    raise
                last = f"{type(error).__name__}: {error}"
            finally:
                self.cluster.end()
        raise Failed(f"workers were lost in three tries; {last}", 7)

    def edges(self, version):
        """Returns the edges of a version, ascending: sources, destinations and weights."""
        found = self.tried(lambda: self.cluster.results(self.cluster.submit(listed, it) for it in version.parts))
        keys, weights = (np.concatenate(it) for it in zip(*found))
        sources, destinations = keys.astype(np.uint32), (keys >> np.uint64(32)).astype(np.uint32)
        order = np.lexsort((destinations, sources))
        return sources[order], destinations[order], weights[order]

    def run(self, version, program, turns):
        n, count, workers = version.cuts[-1], len(version.parts), self.cluster.workers
        need = FIXED + 8 * n * (len(program.ghosts) + 3) + (17 * version.size + 16 * n * len(program.vectors)) // count * -(-count // workers)
        if need > self.cluster.limit:
            raise Failed(f"refused 900: a worker needs {need >> 20} MB for the run, and may have {int(self.cluster.limit) >> 20} MB", 4)
        it = program._replace(main=None)._asdict()
        ranges = [(part, version.cuts, index, it, self.push) for index, part in enumerate(version.parts)]
        return self.tried(lambda: Run(program, version.cuts, self.cluster.start(ranges), turns).reply())

def cuts_of(destinations, n, count):
    """Returns the bounds of ranges with equal numbers of edges, a vertex counted as four."""
    total = np.cumsum(np.bincount(destinations, minlength=n) + 4)
    inner = np.searchsorted(total, [total[-1] * it // count for it in range(1, count)]) + 1
    return sorted({0, n, *inner.clip(max=n).tolist()})
