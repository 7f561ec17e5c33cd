"""A log of script lines and a queue of asks: streams of two servers of Redis. That of the log has each entry in a file before it
acknowledges it (`appendonly yes`, `appendfsync always`); that of the asks needs no file, since a lost ask is asked again."""
import dataclasses, json, os, re, sys, uuid
import redis

sys.path.insert(0, os.path.join(os.path.dirname(os.path.realpath(__file__)), "../../python"))
from gsnap.errors import Refused
from gsnap.wire import Wire

EDIT = re.compile("(?:add|del) [0-9]{1,9} [0-9]{1,9}|add [0-9]{1,9} [0-9]{1,9} (-?[0-9]+)|grow [0-9]{1,9}")
GROUP = "replicas"
# Appends an entry, and returns its number. An append that is sent again finds its token.
APPEND = """
for _, entry in ipairs(redis.call('XREVRANGE', KEYS[1], '+', '-', 'COUNT', 100)) do
    if entry[2][4] == ARGV[2] then return entry[1] end
end
if (string.sub(ARGV[1], 1, 9) == 'vertices ') ~= (redis.call('EXISTS', KEYS[1]) == 0) then
    return redis.error_reply('the line vertices is the first entry of a log, and no other')
end
return redis.call('XADD', KEYS[1], '0-*', 'lines', ARGV[1], 'token', ARGV[2])"""

def connect(server, tries=-1):
    """Returns a connection to HOST:PORT. A call is tried again so many times while the server is down or loads, or without an end."""
    again = [OSError, redis.exceptions.ConnectionError, redis.exceptions.BusyLoadingError, redis.exceptions.TimeoutError]
    retry = redis.retry.Retry(redis.backoff.ExponentialBackoff(0.5, 0.01), tries)
    return redis.Redis(*server.split(":"), decode_responses=True, retry=retry, retry_on_error=again)

def append(log, lines, token=None):
    """Appends an entry, and returns its number, from 1 without gaps. One whose answer was lost is sent again by its token."""
    edits = [EDIT.fullmatch(line) for line in lines[:-1]]
    is_batch = lines[-1:] == ["commit"] and all(edits) and all(-(2**63) <= int(it[1] or 0) < 2**63 for it in edits)
    if not is_batch and not (len(lines) == 1 and (it := re.fullmatch("vertices ([0-9]{1,9})", lines[0])) and 1 <= int(it[1]) <= 1 << 24):
        raise ValueError("an entry of the log is `vertices N`, or edits and then `commit`")
    return int(log.eval(APPEND, 1, "log", "\n".join([*lines, ""]), token or uuid.uuid4().hex)[2:])

def ask(asks, program, turns, workers=1, after=0, version=None):
    """Returns the reply to a run, on a version that has the entry `after` of the log, or on a kept version by its number."""
    stream, key, asked = "asks" if version is None else f"asks:{version}", f"answer:{uuid.uuid4().hex}", None
    while version is None or asks.exists(f"keeper:{version}"):
        asked = asked or asks.xadd(stream, {"program": program, "turns": turns, "workers": workers, "after": after, "answer": key})
        waits = asks.xrange(stream, asked, asked)
        if found := asks.blpop(key, 1) if waits else asks.lpop(key):
            return json.loads(found[1] if waits else found)
        asked = waits and asked  # an ask that neither waits nor is answered was lost
    return {"refused": f"no replica keeps version {version}"}

class Follower:
    """A process of gsnap that has done a log up to a number. `kept` are versions to be held as they are made."""

    def __init__(self, log, programs=(), kept=()):
        self.log, self.programs, self.kept = log, programs, kept
        self.begin()

    def begin(self):
        """Begins anew, with the snapshot if there is one. Versions that were held are gone."""
        self.wire, self.tickets, self.number, self.version, self.vertices = Wire(self.programs), {}, 0, 0, 0
        if found := self.log.lrange("snapshot", 0, -1):
            self.number, self.version = map(int, found[0].split())
            self.vertices = self.wire.replay([it.encode() for it in found[1:]])[0].vertices

    def follow(self):
        """Does the log to its end, and yields each number reached. If the next entry was trimmed, it begins anew."""
        while found := self.log.xread({"log": f"0-{self.number}"}, count=1 if self.kept else 20):
            first = int(found[0][1][0][0][2:])
            if first != self.number + 1:
                self.begin()
                if first > self.number + 1:
                    raise ValueError(f"the log begins with {first}, and there is no snapshot up to it")
                continue
            for _, fields in found[0][1]:
                self.do(fields["lines"])
            yield self.number

    def do(self, text):
        """Does an entry. A commit that is refused changes nothing, here as in each other process."""
        edits, last = text[: text[:-1].rfind("\n") + 1], text.splitlines()[-1]
        self.number += 1
        self.wire.send(edits.encode())
        try:
            reply = self.wire.ask(last)
        except Refused:
            return
        self.version = reply.version if last == "commit" else 0
        self.vertices = max(self.vertices, *map(int, re.findall("(?m)^(?:grow|vertices) ([0-9]+)$", text)), 0)
        if self.version in self.kept:
            self.tickets[self.version] = self.wire.ask("hold").ticket

    def run(self, program, turns, workers, version):
        """Runs a program on the newest version or on one that is held, and returns the reply as askers get it."""
        ticket = "" if version == self.version else f" {self.tickets[version]}"
        try:
            return {"version": version} | dataclasses.asdict(self.wire.run(f"run {program} {turns} {workers}{ticket}"))
        except Refused as refused:
            return {"version": version, "refused": refused.number}
