// The entries of the vertices: a histogram, the greatest and the commonest, and a table with a filter.

const ROWS = 100;
const MOST_BARS = 24;
const MOST_LISTED = 10;

const FILTER_HELP = "Words that a name has, and conditions on vectors and sets, with a space between: " +
    "distance>2, label=3, distance!=-1, frontier=yes. Each must hold.";

const CONDITION = /^([A-Za-z_]\w*)(<=|>=|!=|=|<|>)(-?\d+|yes|no)$/;

const RELATIONS = {
  "=": (a, b) => a === b,
  "!=": (a, b) => a !== b,
  "<": (a, b) => a < b,
  ">": (a, b) => a > b,
  "<=": (a, b) => a <= b,
  ">=": (a, b) => a >= b,
};

const sameKind = (word) => (Number.isSafeInteger(Number(word)) ? Number(word) : BigInt(word));

// Makes a test of a vertex of a word of the filter.
const testOf = (word, state) => {
  const [, name, relation, value] = CONDITION.exec(word) || [];
  if (name && state && state.vectors.has(name) && /\d/.test(value)) {
    const entries = state.vectors.get(name);
    const wanted = sameKind(value);
    return (vertex) => RELATIONS[relation](entries[vertex], wanted);
  }
  if (name && state && state.sets.has(name) && !/\d/.test(value) && "!=".includes(relation)) {
    const members = new Set(state.sets.get(name));
    const wanted = (value === "yes") === (relation === "=");
    return (vertex) => members.has(vertex) === wanted;
  }
  const wanted = word.toLowerCase();
  return (vertex) => nameOf(vertex).toLowerCase().includes(wanted);
};

const columnsOf = (state) => (state ? [...state.vectors.keys(), ...state.sets.keys()] : []);

// The vertices that the filter lets through, in the order of the table.
const filtered = (state) => {
  const tests = view.filter.split(/\s+/).filter(Boolean).map((word) => testOf(word, state));
  const found = [];
  for (let vertex = 0; vertex < data.versions[view.version].vertices; vertex += 1) {
    if (tests.every((test) => test(vertex))) found.push(vertex);
  }
  return inOrder(found, state);
};

const inOrder = (found, state) => {
  const sign = view.isDown ? -1 : 1;
  const keys = orderKeys(state);
  if (!keys) return view.isDown ? found.reverse() : found;
  return found.sort((a, b) => sign * compared(keys(a), keys(b)) || a - b);
};

// What vertices are ordered by, or null for their numbers.
const orderKeys = (state) => {
  if (view.order === "vertex" && data.names) return nameOf;
  if (!state || !view.order) return null;
  const entries = state.vectors.get(view.order);
  if (entries) return (vertex) => entries[vertex];
  const members = state.sets.has(view.order) ? new Set(state.sets.get(view.order)) : null;
  return members && ((vertex) => (members.has(vertex) ? 1 : 0));
};

const rowMaker = (state) => {
  const sets = state ? [...state.sets.values()].map((it) => new Set(it)) : [];
  const vectors = state ? [...state.vectors.values()] : [];
  return (vertex) => [nameOf(vertex),
             ...vectors.map((it) => String(it[vertex])),
             ...sets.map((it) => (it.has(vertex) ? "yes" : "no"))];
};

const orderButton = (name) => {
  const mark = view.order === name ? (view.isDown ? " ▼" : " ▲") : "";
  const button = element("button", {type: "button", class: "link", "aria-label": `order by ${name}`}, `${name}${mark}`);
  button.addEventListener("click", () => go({order: name, isDown: view.order === name && !view.isDown, row: 0}));
  return button;
};

// The table of some vertices. A click on a row, or on the vertex in it, chooses the vertex.
const rowsTable = (state, shown) => {
  const makeRow = rowMaker(state);
  const rows = shown.map((vertex) => {
    const [name, ...entries] = makeRow(vertex);
    return [element("button", {type: "button", class: "link"}, name), ...entries];
  });
  const found = table(`Entries on version ${view.version}`, ["vertex", ...columnsOf(state)].map(orderButton), rows);
  found.querySelectorAll("tbody tr").forEach((row, at) => {
    row.addEventListener("click", () => go({vertex: shown[at]}));
    if (shown[at] === view.vertex) row.className = "chosen";
  });
  return found;
};

const drawRows = () => {
  const state = shownState();
  const found = filtered(state);
  view.row = Math.max(0, Math.min(view.row, Math.floor(Math.max(0, found.length - 1) / ROWS) * ROWS));
  const shown = found.slice(view.row, view.row + ROWS);
  put("rows", rowsTable(state, shown));
  const all = data.versions[view.version].vertices;
  const range = found.length ?
      `rows ${grouped(view.row + 1)} to ${grouped(view.row + shown.length)} of ${grouped(found.length)}` :
      "no row";
  put("rows-count", `${range}${found.length < all ? `, filtered from ${grouped(all)}` : ""}`);
  byId("rows-back").disabled = view.row === 0;
  byId("rows-on").disabled = view.row + ROWS >= found.length;
  if (byId("filter").value !== view.filter) byId("filter").value = view.filter;
};

// The rows that the filter lets through, all of them, as RFC 4180 has it.
const csvText = () => {
  const state = shownState();
  const quoted = (it) => (/[",\r\n]/.test(it) ? `"${it.replace(/"/g, "\"\"")}"` : it);
  const line = (row) => `${row.map(quoted).join(",")}\r\n`;
  return line(["vertex", ...columnsOf(state)]) + filtered(state).map(rowMaker(state)).map(line).join("");
};

const saveCsv = () => {
  const link = element(
      "a", {href: URL.createObjectURL(new Blob([csvText()], {type: "text/csv"})), download: `version-${view.version}.csv`});
  link.click();
  setTimeout(() => URL.revokeObjectURL(link.href), 10000);
};

// Histogram

const countsOf = (entries) => {
  const counts = new Map();
  for (const it of entries) counts.set(it, (counts.get(it) || 0) + 1);
  return counts;
};

// Bars of equal width between the least and the greatest entry, but the entry that the vector begins with has its own.
const wideBars = (counts, initial) => {
  const rest = [...counts].filter(([it]) => it !== initial);
  let [least, greatest] = [rest[0][0], rest[0][0]];
  for (const [it] of rest) [least, greatest] = [it < least ? it : least, it > greatest ? it : greatest];
  const [low, high] = [BigInt(least), BigInt(greatest)];
  const width = (high - low) / BigInt(MOST_BARS) + 1n;
  const bars = new Map();
  for (const [it, count] of rest) {
    const at = (BigInt(it) - low) / width;
    bars.set(at, (bars.get(at) || 0) + count);
  }
  const bar = (at) => {
    const [from, to] = [low + at * width, low + (at + 1n) * width - 1n];
    return {
      label: from === to || from === high ? String(from) : `${from} to ${to > high ? high : to}`,
      first: String(from),
      entry: from,
      count: bars.get(at) || 0
    };
  };
  const found = [...Array(Number((high - low) / width) + 1).keys()].map((at) => bar(BigInt(at)));
  return counts.has(initial) ?
      [{label: `${initial}, as it began`, first: String(initial), entry: initial, count: counts.get(initial)}, ...found] :
      found;
};

const barsOf = (counts, initial) => {
  if (counts.size > MOST_BARS) return wideBars(counts, initial);
  return [...counts].sort(([a], [b]) => compared(a, b)).map(([it,
    count]) => ({label: String(it), first: String(it), entry: it, count}));
};

const drawHistogram = (entries, scale) => {
  const initial = scale ? scale.initial : null;
  const colourOf = (entry) => scale.colourOf(entry);
  const bars = entries.length ? barsOf(countsOf(entries), initial) : [];
  put("histogram-title", `Histogram${view.by ? ` of ${view.by}` : ""}`);
  if (!bars.length) {
    put("histogram", "There are no entries.");
    return;
  }
  const [width, height] = [300, 130];
  const most = Math.max(...bars.map((it) => it.count));
  const step = width / bars.length;
  const tall = (count) => (count ? Math.max(1.5, (height * count) / most) : 0);
  const every = Math.ceil(bars.length / 8);
  const nodes = bars.flatMap((it, at) => [drawn("rect",
                                              {
                                                x: at * step + 1,
                                                y: 16 + height - tall(it.count),
                                                width: Math.max(1, step - 2),
                                                height: tall(it.count),
                                                class: "bar",
                                                style: `fill: ${colourOf(it.entry)}`
                                              },
                                              drawn("title", {}, `${it.label}: ${counted(it.count, "vertex", "vertices")}`)),
                                 at % every === 0 ? drawn("text",
                                                        {x: at * step + step / 2, y: height + 30, class: "axis-number"},
                                                        it.first.length > 6 ? `${it.first.slice(0, 5)}…` : it.first) :
                                                                              null,
  ]);
  const svg = drawn("svg",
      {
        viewBox: `0 0 ${width} ${height + 36}`,
        role: "img",
        "aria-label": `Histogram of ${view.by}: ${bars.map((it) => `${it.label}: ${it.count}`).join("; ")}`
      },
      drawn("text", {x: 0, y: 10}, `${grouped(most)} vertices`),
      ...nodes);
  const rows = element("details",
      {},
      element("summary", {}, "Histogram as a table"),
      table(`Histogram of ${view.by}`, ["entries", "vertices"], bars.map((it) => [it.label, it.count])));
  put("histogram", svg, rows);
};

// The vertices with the greatest entries, of equal ones the first.
const greatestEntries = (entries) => {
  const found = [];
  entries.forEach((it, vertex) => {
    if (found.length === MOST_LISTED && !(it > found[MOST_LISTED - 1][1])) return;
    const at = found.findIndex(([, other]) => it > other);
    found.splice(at < 0 ? found.length : at, 0, [vertex, it]);
    found.length = Math.min(found.length, MOST_LISTED);
  });
  return found;
};

const drawLists = (entries) => {
  put("greatest",
      table(`Greatest entries of ${view.by}`, ["vertex", view.by || "entry"], greatestEntries(entries).map(([vertex,
        it]) => [nameOf(vertex), it])));
  const common = [...countsOf(entries)].sort(([a, m], [b, n]) => n - m || compared(a, b)).slice(0, MOST_LISTED);
  put("commonest",
      table(`Commonest entries of ${view.by}`, ["entry", "vertices"], common.map(([it, count]) => [it, grouped(count)])));
};

const drawComponents = () => {
  const {components} = data.versions[view.version];
  if (!components) {
    put("components", "They were not counted on this version.");
    return;
  }
  const listed = components.sizes.slice(0, MOST_LISTED);
  const left = components.count - listed.reduce((sum, [, count]) => sum + count, 0);
  const more = left ? element("p", {class: "facts"}, `${counted(left, "smaller one")} more`) : "";
  put("components",
      table("Sizes of components", ["vertices", "components"], listed.map(([size, count]) => [grouped(size), grouped(count)])),
      more);
};

const drawEntries = () => {
  const state = shownState();
  const entries = (state && state.vectors.get(view.by)) || [];
  const run = shownRun();
  put("entries-of", run ? `${data.programs[view.program - 1].name} on version ${view.version}, turn ${shownTurn(run)}` : "");
  drawHistogram(entries, view.by ? scaleOf(view.program, view.by, view.scale) : null);
  drawLists(entries);
  drawComponents();
  drawRows();
};
