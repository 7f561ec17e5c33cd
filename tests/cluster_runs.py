"""Scripts answered by cluster/ in this process, or by a cluster of Dask, beside gsnap."""
import functools
import importlib.machinery
import importlib.util
import os
import random
import subprocess
import sys
import tempfile
import types

from program import ROOT, binary

os.environ["GSNAP"] = binary()
sys.path.insert(0, f"{ROOT}/cluster")
loader = importlib.machinery.SourceFileLoader("gsnap_dask", f"{ROOT}/cluster/gsnap-dask")
gsnap_dask = importlib.util.module_from_spec(importlib.util.spec_from_loader("gsnap_dask", loader))
loader.exec_module(gsnap_dask)

import clusters
import texts
from plain_language import program_text
from random_texts import Maker, random_lines, random_schedule

SCHEDULES = 3
SETTINGS = [(limit, push, ranges) for limit in (2, 3, 1 << 17) for push in (0, 16, 1 << 62) for ranges in (1, 3, 4)]


class Here:
    """This process in place of the workers of a cluster."""

    lost = ()

    def __init__(self, workers):
        self.workers, self.limit = workers, float("inf")

    def submit(self, function, *args):
        return function(*args)

    def results(self, futures):
        return list(futures)

    def start(self, ranges):
        return [functools.partial(self.call, clusters.Range(*it)) for it in ranges]

    def call(self, it, *words):
        found = it.call(*words)
        return types.SimpleNamespace(result=lambda: found)

    def end(self):
        pass


def closed(cluster):
    """Ends the workers that were started for a cluster."""
    at = cluster.client.cluster
    cluster.client.close()
    at.close()


def answered(cluster, script, programs, limit, push):
    """Returns the status and the replies to a script, by tiles of at most `limit` edges."""
    with tempfile.TemporaryDirectory(prefix="gsnap-dask.") as folder:
        it = gsnap_dask.Script(clusters.Graph(cluster, folder, limit, push), programs)
        replies = b"".join(it.replies(script if script.endswith(b"\n") or not script else script + b"\n"))
        return 3 if it.fault else 0, replies


def case_of(seed, number):
    """Returns a random script, and a program of it under three schedules."""
    chance = random.Random(f"{seed} {number}")
    vertices = chance.randrange(1, 13)
    program = Maker(chance, vertices, 10).program()
    schedules = ((), *(random_schedule(chance, program) for _ in range(SCHEDULES - 1)))
    lines = random_lines(chance, vertices, SCHEDULES)
    return "".join(f"{line}\n" for line in lines).encode(), [program_text(program, it).encode() for it in schedules]


def by_gsnap(script, programs):
    """Returns the status and the replies of gsnap."""
    with tempfile.TemporaryDirectory(prefix="gsnap-dask.") as folder:
        names = []
        for name, text in (("script", script), *((f"{number}.program", it) for number, it in enumerate(programs))):
            names.append(f"{folder}/{name}")
            with open(names[-1], "wb") as file:
                file.write(text)
        ran = subprocess.run([binary(), "script", *names], capture_output=True, check=False)
        return ran.returncode, ran.stdout


def is_same(cluster, seed, number, limit, push):
    """Whether a random case is answered as by gsnap. One that differs is named."""
    script, programs = case_of(seed, number)
    wanted, found = by_gsnap(script, programs), None
    try:
        found = answered(cluster, script, list(map(texts.read, programs)), limit, push)
    except Exception as error:
        print(f"  {type(error).__name__}: {error}")
    if found != wanted:
        print(f"case {number} of seed {seed} differs by tiles of {limit} edges, {cluster.workers} ranges, pushed by {push}")
    return found == wanted


def is_same_here(seed, number):
    limit, push, ranges = SETTINGS[number % len(SETTINGS)]
    return is_same(Here(ranges), seed, number, limit, push)
