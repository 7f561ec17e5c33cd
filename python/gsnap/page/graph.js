// The drawing of one version: edges that came and went, vertices coloured by a vector, a set outlined; zoom and drag.

const zoom = {
  scale: 1,
  x: 0,
  y: 0
};

// From this zoom on each vertex has its name beside it, however many there are.
const NAMES_FROM = 2.5;
const picture = {
  places: null,
  box: null,
  radius: 10,
  looks: [],
  version: null,
  svg: null,
  inner: null,
  lines: null,
  vertices: null
};

const radiusFor = (count) => (count <= 20 ? 17 : count <= 60 ? 13 : count <= 150 ? 9 : 6);

// If there are more lines, those that stay are thin, and their weights are in the table alone.
const MOST_STRONG_LINES = 400;

const LEAST_BOX = {
  width: 480,
  height: 340
};

// Makes a box at least so wide and high that a few vertices are not drawn like plates.
const widened = (box) => {
  const [width, height] = [Math.max(box.width, LEAST_BOX.width), Math.max(box.height, LEAST_BOX.height)];
  return {left: box.left - (width - box.width) / 2, top: box.top - (height - box.height) / 2, width, height};
};

// Computes the places once, so far apart that circles of the radius do not touch.
const place = () => {
  const count = data.versions[lastVersion].vertices;
  const [xs, ys] = placed(count, allEdges());
  picture.radius = radiusFor(count);
  const unit = picture.radius * (count <= 20 ? 6 : 5);
  picture.places = xs.map((x, at) => ({x: x * unit, y: ys[at] * unit}));
  const [px, py] = [picture.places.map((it) => it.x), picture.places.map((it) => it.y)];
  const margin = 3 * picture.radius;
  const [left, top] = [Math.min(...px) - margin, Math.min(...py) - margin];
  picture.box = widened({left, top, width: Math.max(...px) + margin - left, height: Math.max(...py) + margin - top});
};

// How an edge of this version or of the one before is drawn, and with which label.
const lookOf = (now, before) => {
  const label = (it) => (it.weight === 1 ? "" : String(it.weight));
  if (!now) return {name: "went", label: label(before)};
  if (!before) return {name: view.version === 0 ? "stays" : "came", label: label(now)};
  if (now.weight !== before.weight) return {name: "reweighted", label: `${before.weight} → ${now.weight}`};
  return {name: "stays", label: label(now)};
};

const edgeLooks = () => {
  const now = edgesAt(view.version);
  const before = view.version > 0 ? edgesAt(view.version - 1) : new Map();
  const keys = new Set([...before.keys(), ...now.keys()]);
  return [...keys].sort((a, b) => a - b).map((key) => {
    const {u, v} = now.get(key) || before.get(key);
    return {u, v, ...lookOf(now.get(key), before.get(key))};
  });
};

// The lines that are drawn: one with two heads for edges both ways that look alike, and else one for each edge.
const linesOf = (looks) => {
  const byKey = new Map(looks.map((it) => [edgeKey(it.u, it.v), it]));
  return looks.flatMap((look) => {
    const back = byKey.get(edgeKey(look.v, look.u));
    const isTwin = back && back !== look && back.name === look.name && back.label === look.label;
    if (isTwin && look.u > look.v) return [];
    return [{...look, isTwin, isBent: Boolean(back) && !isTwin}];
  });
};

// The path of a line from circle to circle, bent if there is another line the other way, and the place of its label.
const edgePath = ({u, v, isBent}) => {
  const [from, to, radius] = [picture.places[u], picture.places[v], picture.radius];
  if (u === v) {
    const d = `M${from.x - 0.5 * radius},${from.y - 0.87 * radius} C${from.x - 2 * radius},${from.y - 3 * radius} ${
        from.x + 2 * radius},${from.y - 3 * radius} ${from.x + 0.6 * radius},${from.y - radius}`;
    return {d, x: from.x, y: from.y - 2.6 * radius};
  }
  const [dx, dy] = [to.x - from.x, to.y - from.y];
  const length = Math.max(1, Math.hypot(dx, dy));
  const bend = isBent ? Math.min(0.12 * length, 0.9 * radius) : 0;
  const [nx, ny] = [-dy / length, dx / length];
  const middle = {x: (from.x + to.x) / 2 + 2 * bend * nx, y: (from.y + to.y) / 2 + 2 * bend * ny};
  const near = (end, gap) => {
    const [ex, ey] = [middle.x - end.x, middle.y - end.y];
    const far = Math.max(1, Math.hypot(ex, ey));
    return {x: end.x + (ex / far) * gap, y: end.y + (ey / far) * gap};
  };
  const [a, b] = [near(from, radius + 1), near(to, radius + 1)];
  return {
    d: `M${a.x},${a.y} Q${middle.x},${middle.y} ${b.x},${b.y}`,
    x: (from.x + to.x) / 2 + (bend + 6) * nx,
    y: (from.y + to.y) / 2 + (bend + 6) * ny
  };
};

const arrow = (name) => drawn("marker",
    {
      id: `arrow-${name}`,
      viewBox: "0 0 8 8",
      refX: 7,
      refY: 4,
      markerWidth: 9,
      markerHeight: 9,
      markerUnits: "userSpaceOnUse",
      orient: "auto-start-reverse"
    },
    drawn("path", {d: "M0,0 L8,4 L0,8 Z", class: `head ${name}`}));

const edgeNodes = (look) => {
  const path = edgePath(look);
  const head = `url(#arrow-${look.name})`;
  const line = drawn("path", {
    d: path.d,
    class: `edge ${look.name}`,
    "data-edge": `${look.u} ${look.v}`,
    "data-back": look.isTwin ? `${look.v} ${look.u}` : null,
    "marker-end": head,
    "marker-start": look.isTwin ? head : null,
  });
  return [line, look.label ? drawn("text", {x: path.x, y: path.y + 4, class: `weight ${look.name}`}, look.label) : null];
};

const vertexNode = (vertex, entries, members, words) => {
  const {x, y} = picture.places[vertex];
  const entry = entries ? entries[vertex] : undefined;
  const colour = entry === undefined ? "var(--unset)" : scaleOf(view.program, view.by, view.scale).colourOf(entry);
  const inside = entry === undefined ? "" : String(entry);
  const fits = picture.radius >= 13 && inside.length <= 4;
  const names =
      ["vertex", members.has(vertex) ? "member" : "", view.vertex === vertex ? "looked-at" : ""].filter(Boolean).join(" ");
  const shownName = picture.radius >= 13 || view.vertex === vertex || zoom.scale >= NAMES_FROM;
  return drawn(
      "g",
      {class: names, "data-vertex": vertex, "data-entry": inside, transform: `translate(${x},${y})`},
      drawn("title", {}, words(vertex)),
      members.has(vertex) ? drawn("circle", {r: picture.radius + 4, class: "outline"}) : null,
      drawn("circle", {r: picture.radius, style: `fill: ${colour}`}),
      fits ? drawn("text", {class: "entry", dy: "0.35em", style: `fill: ${inkOn(colour)}`}, inside) : null,
      shownName ? drawn("text", {class: "name", y: picture.radius + 12}, nameOf(vertex)) : null,
  );
};

// Makes the words that say all of a vertex in a state.
const vertexWordsOf = (state) => {
  const vectors = state ? [...state.vectors] : [];
  const sets = state ? [...state.sets].map(([name, it]) => [name, new Set(it)]) : [];
  return (vertex) => {
    const entries = vectors.map(([name, it]) => `${name} ${it[vertex]}`);
    return [nameOf(vertex), ...entries, ...sets.filter(([, it]) => it.has(vertex)).map(([name]) => `in ${name}`)].join(", ");
  };
};

const zoomed = () => `translate(${zoom.x},${zoom.y}) scale(${zoom.scale})`;

const showZoom = () => {
  if (picture.inner) picture.inner.setAttribute("transform", zoomed());
};

// Makes the drawing without anything in it.
const prepareDrawing = () => {
  place();
  const {left, top, width, height} = picture.box;
  picture.lines = drawn("g");
  picture.vertices = drawn("g");
  picture.inner = drawn("g", {transform: zoomed()}, picture.lines, picture.vertices);
  picture.svg = drawn(
      "svg",
      {viewBox: `${left} ${top} ${width} ${height}`, preserveAspectRatio: "xMidYMid meet", role: "img", tabindex: 0},
      drawn("defs", {}, ...["stays", "came", "went", "reweighted"].map(arrow)),
      picture.inner,
  );
  put("drawing", picture.svg);
};

// Draws the edges of the version and those that went, if they are not drawn already.
const drawEdges = () => {
  if (picture.version === view.version) return;
  picture.version = view.version;
  picture.looks = edgeLooks();
  const lines = linesOf(picture.looks);
  const isStaying = (it) => it.name === "stays";
  picture.lines.replaceChildren();
  picture.lines.setAttribute("class", lines.length > MOST_STRONG_LINES ? "crowded" : "");
  filled(picture.lines, {}, [...lines.filter(isStaying), ...lines.filter((it) => !isStaying(it))].flatMap(edgeNodes));
};

// Draws the vertices as they are after the turn.
const drawVertices = () => {
  const state = shownState();
  const entries = state ? state.vectors.get(view.by) : null;
  const members = new Set((state && state.sets.get(view.set)) || []);
  const words = vertexWordsOf(state);
  const count = data.versions[view.version].vertices;
  picture.vertices.replaceChildren();
  filled(picture.vertices, {}, [...Array(count).keys()].map((it) => vertexNode(it, entries, members, words)));
  picture.svg.setAttribute("aria-label", graphWords(picture.looks, entries, members));
};

const drawGraph = () => {
  drawChoices();
  if (!data.drawn) {
    put("drawing", element("p", {class: "facts"}, data.whyNotDrawn));
    ["graph-tools", "edge-key", "changes-table"].forEach((id) => hide(id, true));
    document.querySelector(".pair").classList.add("undrawn");
    return;
  }
  if (!picture.svg) prepareDrawing();
  drawEdges();
  drawVertices();
  const since = `since version ${Math.max(0, view.version - 1)}`;
  const key = [["line came", "came"], ["line went", "went"], ["line reweighted", "other weight"], ["line stays", "stays"]];
  put("edge-key", ...keyWords(...key), since);
};

const graphWords = (looks, entries, members) => {
  const count = (name) => looks.filter((it) => it.name === name).length;
  const edges = `Graph of version ${view.version}: ${counted(edgesAt(view.version).size, "edge")}, ${count("came")} came, ${
      count("went")} went, ${count("reweighted")} with another weight`;
  const colours = entries ? `; coloured by ${view.by}` : "";
  return `${edges}${colours}${
      view.set && view.set !== "-" ? `; ${counted(members.size, "vertex", "vertices")} in ${view.set} outlined` :
                                     ""}. The tables have all of it.`;
};

const drawChoices = () => {
  const vectors = vectorsOf(view.program);
  choose("by", vectors.length ? vectors.map((it) => [it, it]) : [["", "none"]], view.by);
  choose("set", [["-", "none"], ...setsOf(view.program).map((it) => [it, it])], view.set || "-");
  byId("scale").value = view.scale;
  const vertices = data.versions[view.version].vertices;
  hide("vertex-label", vertices > MOST_OPTIONS);
  if (vertices <= MOST_OPTIONS)
    choose("vertex",
        [["", "none"], ...[...Array(vertices).keys()].map((it) => [it, nameOf(it)])],
        view.vertex === null ? "" : view.vertex);
  const legend = view.by && shownState() ? scaleOf(view.program, view.by, view.scale).legend() : [];
  const patch = (colour) => ({class: "swatch", style: `background: ${colour}`});
  put("legend", ...legend.flatMap(([colour, label]) => [keyWord(patch(colour), label), " "]));
  hide("legend", legend.length === 0);
};

const edgesTable = () => {
  const words = {came: "came", went: "went", reweighted: "other weight", stays: ""};
  const order = ["came", "went", "reweighted", "stays"];
  const looks = edgeLooks().sort((a, b) => order.indexOf(a.name) - order.indexOf(b.name));
  const caption = `Edges of version ${view.version}, and those that went since the version before`;
  const rowOf = (it) => [nameOf(it.u), nameOf(it.v), it.label || "1", words[it.name]];
  return tableOf(caption, ["from", "to", "weight", "change"], looks, 0, rowOf);
};

// Zoom and drag

const pointOf = (event) => {
  const matrix = picture.svg.getScreenCTM().inverse();
  return new DOMPoint(event.clientX, event.clientY).matrixTransform(matrix);
};

const centre = () => ({x: picture.box.left + picture.box.width / 2, y: picture.box.top + picture.box.height / 2});

const zoomBy = (factor, about = centre()) => {
  if (!data.drawn) return;
  const before = zoom.scale;
  zoom.scale = Math.max(0.2, Math.min(20, before * factor));
  const ratio = zoom.scale / before;
  zoom.x = about.x - (about.x - zoom.x) * ratio;
  zoom.y = about.y - (about.y - zoom.y) * ratio;
  showZoom();
  if (before >= NAMES_FROM !== zoom.scale >= NAMES_FROM) drawGraph();
};

const fit = () => {
  Object.assign(zoom, {scale: 1, x: 0, y: 0});
  showZoom();
  if (data.drawn) drawGraph();
};

const pan = (dx, dy) => {
  zoom.x += dx;
  zoom.y += dy;
  showZoom();
};

// Moves a vertex, in all versions. What follows at once is drawn together.
const moveVertex = (vertex, dx, dy) => {
  picture.places[vertex].x += dx;
  picture.places[vertex].y += dy;
  if (picture.version === null) return;
  picture.version = null;
  requestAnimationFrame(drawGraph);
};

const drag = {
  vertex: null,
  last: null,
  isMoved: false
};

const beginDrag = (event) => {
  if (!picture.svg || event.button > 0) return;
  document.activeElement.blur();
  const node = event.target.closest("[data-vertex]");
  Object.assign(drag, {vertex: node ? Number(node.dataset.vertex) : null, last: pointOf(event), isMoved: false});
};

const continueDrag = (event) => {
  if (!drag.last) return;
  const point = pointOf(event);
  const [dx, dy] = [point.x - drag.last.x, point.y - drag.last.y];
  if (!drag.isMoved && Math.hypot(dx, dy) < 3) return;
  drag.last = point;
  drag.isMoved = true;
  if (drag.vertex === null)
    pan(dx, dy);
  else
    moveVertex(drag.vertex, dx / zoom.scale, dy / zoom.scale);
};

const endDrag = () => {
  if (drag.last && !drag.isMoved && drag.vertex !== null) go({vertex: view.vertex === drag.vertex ? null : drag.vertex});
  drag.last = null;
};

const listenToGraph = () => {
  const box = byId("drawing");
  box.addEventListener("pointerdown", beginDrag);
  box.addEventListener("mousedown", (event) => event.preventDefault());
  window.addEventListener("pointermove", continueDrag);
  window.addEventListener("pointerup", endDrag);
  box.addEventListener(
      "wheel",
      (event) => {
        if (!picture.svg) return;
        event.preventDefault();
        zoomBy(event.deltaY < 0 ? 1.15 : 1 / 1.15, pointOf(event));
      },
      {passive: false},
  );
};
