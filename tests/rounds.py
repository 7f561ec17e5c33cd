"""Rounds of a seed: what the random tests of long/ have in common."""
import argparse
import os
import random
import tempfile
from concurrent.futures import ProcessPoolExecutor

# So many rounds that fail are made small and written.
SHOWN = 3


def words(doc, rounds):
    """Reads the words of the command line: a seed, how many rounds, and a folder for those that fail."""
    parser = argparse.ArgumentParser(usage=doc.split("\n\n")[1].removeprefix("usage: "))
    parser.add_argument("--seed", type=int, default=random.SystemRandom().randrange(10**9))
    parser.add_argument("--count", type=int, default=rounds)
    parser.add_argument("--folder")
    given = parser.parse_args()
    print(f"{given.count} rounds of seed {given.seed}", flush=True)
    return given


def done_by(tried, works, chunksize):
    """Does these works side by side, as many as there are processors, and returns what each gives, in order."""
    with ProcessPoolExecutor(len(os.sched_getaffinity(0))) as pool:
        return list(pool.map(tried, works, chunksize=chunksize))


def end(given, wrong, write_failure):
    """Writes the first rounds that fail, and counts them. Returns the status."""
    if wrong:
        folder = given.folder or tempfile.mkdtemp(prefix="gsnap-random-")
        for number in wrong[:SHOWN]:
            write_failure(given.seed, number, folder)
        if len(wrong) > SHOWN:
            print(f"other rounds that fail: {wrong[SHOWN:SHOWN + 20]}")
    print(f"{given.count - len(wrong)} passed, {len(wrong)} failed")
    return 1 if wrong else 0
