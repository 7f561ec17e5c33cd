// Places of the vertices, by forces: edges of all versions pull, vertices push apart (after Fruchterman and Reingold, 1991).

const ROUNDS = 260;
const GRAVITY = 0.05;

// Vertices that are farther apart do not push each other.
const REACH = 5;

// Turns that never repeat put the vertices on a spiral to begin with, so that the same graph gets the same places.
const GOLDEN = Math.PI * (3 - Math.sqrt(5));

const spiral = (count) => {
  const xs = new Float64Array(count);
  const ys = new Float64Array(count);
  for (let it = 0; it < count; it += 1) {
    xs[it] = Math.sqrt(it + 0.5) * Math.cos(it * GOLDEN);
    ys[it] = Math.sqrt(it + 0.5) * Math.sin(it * GOLDEN);
  }
  return [xs, ys];
};

const pushApart = (xs, ys, dx, dy) => {
  for (let a = 0; a < xs.length; a += 1) {
    for (let b = a + 1; b < xs.length; b += 1) {
      const x = xs[a] - xs[b];
      const y = ys[a] - ys[b];
      const square = x * x + y * y;
      if (square > REACH * REACH) continue;
      const force = 1 / Math.max(0.01, square);
      dx[a] += x * force;
      dy[a] += y * force;
      dx[b] -= x * force;
      dy[b] -= y * force;
    }
  }
};

const pullTogether = (edges, xs, ys, dx, dy) => {
  for (const [a, b] of edges) {
    const x = xs[a] - xs[b];
    const y = ys[a] - ys[b];
    const length = Math.sqrt(x * x + y * y);
    dx[a] -= x * length;
    dy[a] -= y * length;
    dx[b] += x * length;
    dy[b] += y * length;
  }
};

const moved = (xs, ys, dx, dy, most) => {
  for (let it = 0; it < xs.length; it += 1) {
    dx[it] -= GRAVITY * xs[it];
    dy[it] -= GRAVITY * ys[it];
    const length = Math.max(1e-9, Math.sqrt(dx[it] * dx[it] + dy[it] * dy[it]));
    const step = Math.min(most, length) / length;
    xs[it] += dx[it] * step;
    ys[it] += dy[it] * step;
  }
};

const middleOf = (lengths) => lengths.sort((a, b) => a - b)[lengths.length >> 1];

// The length in the middle of the lengths of all edges.
const middleLength = (pairs, xs, ys) =>
    pairs.length ? middleOf(pairs.map(([a, b]) => Math.hypot(xs[a] - xs[b], ys[a] - ys[b]))) : 1;

// How far the nearest other vertex is from a vertex in the middle.
const middleNearest = (xs, ys) => {
  const nearest = new Float64Array(xs.length).fill(Infinity);
  for (let a = 0; a < xs.length; a += 1) {
    for (let b = a + 1; b < xs.length; b += 1) {
      const length = Math.hypot(xs[a] - xs[b], ys[a] - ys[b]);
      nearest[a] = Math.min(nearest[a], length);
      nearest[b] = Math.min(nearest[b], length);
    }
  }
  return middleOf(nearest);
};

// The place of each vertex, as lists of x and y, by a unit that half of the edges are not longer than. In a graph with many edges
// the unit is twice as long as it is far to the nearest vertex.
const placed = (count, edges) => {
  const [xs, ys] = spiral(count);
  const joined = new Map();
  for (const {u, v} of edges.values())
    if (u !== v) joined.set(edgeKey(Math.min(u, v), Math.max(u, v)), [u, v]);
  const pairs = [...joined.values()];
  for (let round = 0; round < ROUNDS; round += 1) {
    const dx = new Float64Array(count);
    const dy = new Float64Array(count);
    pushApart(xs, ys, dx, dy);
    pullTogether(pairs, xs, ys, dx, dy);
    moved(xs, ys, dx, dy, 0.6 * (1 - round / ROUNDS) + 0.01);
  }
  const unit = Math.min(middleLength(pairs, xs, ys), 2 * middleNearest(xs, ys));
  return [Array.from(xs, (it) => it / unit), Array.from(ys, (it) => it / unit)];
};
