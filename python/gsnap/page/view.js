// What the page shows now, and the link that opens it again.

const view = {
  version: lastVersion,
  program: data.programs.length ? 1 : 0,
  turn: null,  // null is the end of the run
  by: "",
  set: "",
  scale: "order",
  vertex: null,
  filter: "",
  order: null,  // null is the order of the vertices' numbers
  isDown: false,
  row: 0,
};

const whole = (word, most) => (/^\d{1,15}$/.test(word || "") ? Math.min(Number(word), most) : null);

const shownRun = () => runOf(view.program, view.version);

const shownTurn = (run) => (view.turn === null || !hasTurns(run) ? run.turns : view.turn);

const shownState = () => {
  const run = shownRun();
  return run ? stateAt(run, shownTurn(run)) : null;
};

const runsOfProgram = (program) => data.runs.filter((run) => run.program === program);

const vectorsOf = (program) => defaultsOf(program).vectors;

const setsOf = (program) => defaultsOf(program).sets;

// The set that is outlined if none is chosen: the first that changes during the last run that has turns.
const changingSet = (program, sets) => {
  const run = runsOfProgram(program).filter(hasTurns).reverse().find((it) => it.turns > 0);
  if (!run) return "";
  const changes = (name) => {
    const members = new Set();
    for (let turn = 0; turn <= Math.min(run.turns, 20); turn += 1)
      members.add((stateAt(run, turn).sets.get(name) || []).join());
    return members.size > 1;
  };
  return sets.find(changes) || "";
};

const defaults = new Map();

// The vectors and sets of a program, those that are there at some turns alone too; and those that are shown if none is chosen.
const defaultsOf = (program) => {
  if (defaults.has(program)) return defaults.get(program);
  const states = runsOfProgram(program).flatMap((run) => [run.state, ...(run.states || [])]);
  const vectors = [...new Set(states.flatMap((it) => it.vectors.map(([name]) => name)))];
  const sets = [...new Set(states.flatMap((it) => it.sets.map(([name]) => name)))];
  defaults.set(program, {vectors, sets, by: vectors[0] || "", set: changingSet(program, sets)});
  return defaults.get(program);
};

// Makes what the page shows something that is there.
const settle = () => {
  view.version = Math.max(0, Math.min(lastVersion, view.version));
  const run = shownRun();
  if (!hasTurns(run) || view.turn >= run.turns) view.turn = null;
  const vectors = vectorsOf(view.program);
  const sets = setsOf(view.program);
  if (!vectors.includes(view.by)) view.by = defaultsOf(view.program).by;
  if (view.set !== "-" && !sets.includes(view.set)) view.set = defaultsOf(view.program).set;
  if (view.vertex !== null && view.vertex >= data.versions[view.version].vertices) view.vertex = null;
};

const linkOf = () => {
  const run = shownRun();
  const usual = defaultsOf(view.program);
  const words = new URLSearchParams({version: view.version});
  if (run) words.set("turn", shownTurn(run));
  if (view.program > 1) words.set("program", view.program);
  if (view.by !== usual.by) words.set("by", view.by);
  if (view.set !== usual.set) words.set("set", view.set);
  if (view.scale !== "order") words.set("colours", view.scale);
  if (view.vertex !== null) words.set("vertex", view.vertex);
  if (view.filter) words.set("filter", view.filter);
  return `#${words}`;
};

// Takes what a link such as #version=3&turn=2 names. What it does not name is as when the page is opened.
const readLink = () => {
  const words = new URLSearchParams(location.hash.slice(1));
  const version = whole(words.get("version"), lastVersion);
  const program = whole(words.get("program"), data.programs.length);
  view.version = version === null ? lastVersion : version;
  view.program = program || (data.programs.length ? 1 : 0);
  view.turn = whole(words.get("turn"), Number.MAX_SAFE_INTEGER);
  view.by = words.get("by") || "";
  view.set = words.get("set") || "";
  view.scale = words.get("colours") === "apart" ? "apart" : "order";
  view.vertex = whole(words.get("vertex"), Number.MAX_SAFE_INTEGER);
  view.filter = words.get("filter") || "";
  view.row = 0;
  settle();
};

const writeLink = () => {
  try {
    if (location.hash !== linkOf()) history.replaceState(null, "", linkOf());
  } catch {
    // A frame of a notebook has no link.
  }
};
