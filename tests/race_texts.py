"""What a race may print: its early runs may be on each version."""
import itertools
import subprocess

from program import GSNAP, PATIENCE

# A line that is refused by 122, between the replies to runs.
SEPARATOR = "release 18446744073709551615"
SEPARATION = b"refused 122\n"


def race_texts(lines, program, count=1, turns=1000000):
    """Returns each text that a race of so many times this program may print beside these lines, of which no commit is refused. The
    runs are those of a script, each on its version, which a ticket holds."""
    held = [lines[0], "hold"]
    for line in lines[1:]:
        held += [line, "hold"] if line == "commit" else [line]
    tickets = range(1, lines.count("commit") + 2)
    for ticket in tickets:
        held += [SEPARATOR, f"run 1 {turns} 1 {ticket}"]
    text = "".join(f"{line}\n" for line in held).encode()
    ran = subprocess.run([GSNAP, "script", "-", program], input=text, capture_output=True, timeout=PATIENCE, check=False)
    head, *runs = ran.stdout.split(SEPARATION)
    head = b"".join(line for line in head.splitlines(keepends=True) if not line.startswith(b"ticket "))
    late = b"".join(b"late %d version %d\n%s" % (number, len(runs) - 1, runs[-1]) for number in range(1, count + 1))
    chosen = itertools.product(range(len(runs)), repeat=count)
    early = (b"".join(b"early %d version %d\n%s" % (number, it, runs[it]) for number, it in enumerate(versions, 1)) for versions in chosen)
    return {head + it + late for it in early}
