// What the page was made of: versions with their edges, runs, and the state of a run at each turn, made from what changed.

const data = JSON.parse(byId("data").textContent);

const MOST_KEPT = 64;

// A number that JavaScript would round is a text in the data, and a BigInt here. Both kinds compare by < and >.
const number = (it) => (typeof it === "string" ? BigInt(it) : it);

const nameOf = (vertex) => (data.names ? data.names[vertex] : String(vertex));

const lastVersion = data.versions.length - 1;

const edgeKey = (u, v) => u * 16777216 + v;

class Kept {
  // Values by their keys, of which the last few are kept.
  constructor(most) {
    this.most = most;
    this.values = new Map();
  }

  get(key, make) {
    if (!this.values.has(key)) {
      if (this.values.size >= this.most) this.values.delete(this.values.keys().next().value);
      this.values.set(key, make());
    }
    return this.values.get(key);
  }
}

const edgeMaps = new Kept(MOST_KEPT);

const applyChanges = (edges, changes) => {
  for (const [u, v] of changes.removed) edges.delete(edgeKey(u, v));
  for (const [u, v, weight] of [...changes.added, ...changes.reweighted])
    edges.set(edgeKey(u, v), {u, v, weight: number(weight)});
};

// The edges of a version by their keys, in a graph that is drawn.
const edgesAt = (version) => edgeMaps.get(version, () => {
  let from = version - 1;
  while (from >= 0 && !edgeMaps.values.has(from)) from -= 1;
  const edges = new Map(from >= 0 ? edgeMaps.values.get(from) : []);
  for (let it = from + 1; it <= version; it += 1) applyChanges(edges, data.versions[it].changes);
  return edges;
});

const allEdges = () => {
  const edges = new Map();
  for (const version of data.versions) {
    for (const [u, v] of version.changes.added) edges.set(edgeKey(u, v), {u, v});
  }
  return edges;
};

// Runs

const runPlace = (program, version) => `${program} ${version}`;

const runs = new Map(data.runs.map((run) => [runPlace(run.program, run.version), run]));

const runOf = (program, version) => runs.get(runPlace(program, version)) || null;

let former = null;
for (const run of data.runs) {
  run.former = run.isFirst ? null : former;
  former = run;
}

const vectorOf = (encoded, before) => {
  if (encoded.all) return encoded.all.map(number);
  const entries = before.slice();
  encoded.at.forEach((vertex, at) => {
    entries[vertex] = number(encoded.to[at]);
  });
  return entries;
};

const setOf = (encoded, before) => {
  if (encoded.all) return encoded.all;
  if (encoded.ranges) {
    const members = [];
    for (let at = 0; at < encoded.ranges.length; at += 2) {
      for (let it = 0; it < encoded.ranges[at + 1]; it += 1) members.push(encoded.ranges[at] + it);
    }
    return members;
  }
  const members = new Set(before);
  encoded.out.forEach((it) => members.delete(it));
  encoded.in.forEach((it) => members.add(it));
  return [...members].sort((a, b) => a - b);
};

const stateSince = (encoded, before) => ({
  printed: encoded.printed,
  vectors: new Map(encoded.vectors.map(([name, it]) => [name, vectorOf(it, before && before.vectors.get(name))])),
  sets: new Map(encoded.sets.map(([name, it]) => [name, setOf(it, before && before.sets.get(name))])),
});

const ends = new Kept(MOST_KEPT);
const states = new Kept(MOST_KEPT);

// The state of a run at its end. A long row of runs is gone through from the first that is kept.
const endOf = (run) => ends.get(runPlace(run.program, run.version), () => {
  const row = [run];
  while (row[0].former && !ends.values.has(runPlace(row[0].former.program, row[0].former.version))) row.unshift(row[0].former);
  let state = row[0].former ? ends.values.get(runPlace(row[0].former.program, row[0].former.version)) : null;
  for (const it of row) state = stateSince(it.state, state);
  return state;
});

const hasTurns = (run) => run !== null && run.states !== null;

const turnPlace = (run, turn) => `${runPlace(run.program, run.version)} ${turn}`;

// The state of a run after so many turns.
const stateAt = (run, turn) => {
  if (!hasTurns(run) || turn >= run.turns) return endOf(run);
  return states.get(turnPlace(run, turn), () => {
    let from = turn - 1;
    while (from >= 0 && !states.values.has(turnPlace(run, from))) from -= 1;
    let state = from >= 0 ? states.values.get(turnPlace(run, from)) : null;
    for (let it = from + 1; it <= turn; it += 1) state = stateSince(run.states[it], state);
    return state;
  });
};

// The turns after which the entry of a vertex was another than before, as [turn, entry], from turn 0 on.
const historyOf = (run, vector, vertex) => {
  const found = [];
  for (let turn = 0; turn <= run.turns; turn += 1) {
    const entries = stateAt(run, turn).vectors.get(vector);
    if (!entries || vertex >= entries.length) continue;
    if (!found.length || found[found.length - 1][1] !== entries[vertex]) found.push([turn, entries[vertex]]);
  }
  return found;
};

const changedIn = (run, turn) => {
  if (turn === 0) return null;
  const before = stateAt(run, turn - 1);
  let changed = 0;
  for (const [name, entries] of stateAt(run, turn).vectors) {
    const old = before.vectors.get(name);
    entries.forEach((it, vertex) => {
      changed += it !== old[vertex];
    });
  }
  return changed;
};
