// What the page does by click, by key and by link.

const refreshers = {};

const statusWords = () => {
  const run = shownRun();
  const turn = run && hasTurns(run) && run.turns ?
      ` ${data.programs[view.program - 1].name}, turn ${shownTurn(run)} of ${run.turns}. ${turnWords(run, shownTurn(run))}` :
      "";
  return `${factsOf(data.versions[view.version])}${turn}`;
};

const render = (isOtherVersion) => {
  if (isOtherVersion) {
    drawVersions();
    drawCharts();
    refreshers.versions();
    refreshers.counts();
    refreshers.changes();
  }
  drawTurns();
  drawGraph();
  drawEntries();
  put("status", statusWords());
};

// Shows something else: a version, a turn, or whatever `changes` names. A turn belongs to its version and its program.
const go = (changes) => {
  const before = {...view};
  Object.assign(view, changes);
  if (!("turn" in changes) && (view.version !== before.version || view.program !== before.program)) view.turn = null;
  if (view.program !== before.program) Object.assign(view, {by: "", set: ""});
  settle();
  writeLink();
  render(view.version !== before.version || view.program !== before.program);
};

const wholeOf = (id) => Math.round(Number(byId(id).value)) || 0;

const KEYS = [
  ["← →", "version before, version after", ["ArrowLeft", "ArrowRight"]],
  ["Home End", "first version, newest version", ["Home", "End"]],
  [", .", "turn before, turn after", [",", "."]],
  ["space", "play and pause", [" "]],
  ["p", "next program", ["p"]],
  ["c", "colours in order, apart", ["c"]],
  ["+ − 0", "zoom in, zoom out, fit", ["+", "-", "0"]],
  ["arrows in the graph", "move the drawing; with Shift the chosen vertex", []],
  ["/", "filter the entries", ["/"]],
  ["?", "these keys", ["?"]],
];

const ACTIONS = {
  ArrowLeft: () => go({version: view.version - 1}),
  ArrowRight: () => go({version: view.version + 1}),
  Home: () => go({version: 0}),
  End: () => go({version: lastVersion}),
  ",": () => stepTurn(-1),
  ".": () => stepTurn(1),
  " ": () => play(),
  p: () => go({program: data.programs.length ? (view.program % data.programs.length) + 1 : 0}),
  c: () => go({scale: view.scale === "order" ? "apart" : "order"}),
  "+": () => zoomBy(1.25),
  "=": () => zoomBy(1.25),
  "-": () => zoomBy(0.8),
  0: () => fit(),
  "/": () => byId("filter").focus(),
  "?": () => byId("keys").showModal(),
};

const STEPS = {
  ArrowLeft: [-20, 0],
  ArrowRight: [20, 0],
  ArrowUp: [0, -20],
  ArrowDown: [0, 20]
};

// Moves the drawing, or with Shift the chosen vertex, by an arrow key in the graph.
const moveByKey = (event) => {
  const step = STEPS[event.key];
  if (!step || !event.target.closest("#drawing")) return false;
  if (event.shiftKey && view.vertex !== null)
    moveVertex(view.vertex, ...step);
  else
    pan(-step[0], -step[1]);
  picture.svg.focus();
  return true;
};

const pressed = (event) => {
  if (event.ctrlKey || event.metaKey || event.altKey || byId("keys").open) return;
  const place = event.target.closest("input, select, textarea, button, summary, a");
  const isPlain = !place || (place.matches("button, summary") && event.key !== " ");
  if (!isPlain || (event.target.closest(".scrolled, pre") && /^(Arrow|Home|End| )/.test(event.key))) return;
  if (moveByKey(event) || ACTIONS[event.key])
    event.preventDefault();
  else
    return;
  if (!STEPS[event.key] || !event.target.closest("#drawing")) ACTIONS[event.key]();
};

const THEMES = ["system", "light", "dark"];

const nextTheme = () => {
  const root = document.documentElement;
  const theme = THEMES[(THEMES.indexOf(root.dataset.theme || "system") + 1) % THEMES.length];
  root.dataset.theme = theme;
  text(byId("theme"), `Theme: ${theme}`);
};

const onClick = (id, action) => byId(id).addEventListener("click", action);
const onChange = (id, action) => byId(id).addEventListener("change", action);

const listen = () => {
  onClick("version-back", ACTIONS.ArrowLeft);
  onClick("version-on", ACTIONS.ArrowRight);
  onChange("version", () => go({version: wholeOf("version")}));
  onClick("turn-back", () => stepTurn(-1));
  onClick("turn-on", () => stepTurn(1));
  onClick("play", play);
  byId("turn").addEventListener("input", () => go({turn: wholeOf("turn")}));
  onChange("program", () => go({program: wholeOf("program")}));
  onChange("by", () => go({by: byId("by").value}));
  onChange("set", () => go({set: byId("set").value}));
  onChange("scale", () => go({scale: byId("scale").value}));
  onChange("vertex", () => go({vertex: byId("vertex").value === "" ? null : wholeOf("vertex")}));
  onClick("zoom-in", ACTIONS["+"]);
  onClick("zoom-out", ACTIONS["-"]);
  onClick("zoom-fit", fit);
  byId("filter").addEventListener("input", () => go({filter: byId("filter").value, row: 0}));
  onClick("rows-back", () => go({row: view.row - ROWS}));
  onClick("rows-on", () => go({row: view.row + ROWS}));
  onClick("csv", saveCsv);
  onClick("theme", nextTheme);
  onClick("help", ACTIONS["?"]);
  document.addEventListener("keydown", pressed);
  window.addEventListener("hashchange", () => {
    pause();
    readLink();
    render(true);
  });
  listenToGraph();
};

const asked = () => tableOf("Runs that the script asks for",
    ["line", "program", "version", "bound on turns", "workers", "end", "turns"],
    data.asked,
    0,
    (it) => [it.line,
        data.programs[it.program - 1].name,
        versionButton(it.version),
        it.bound,
        it.workers,
        it.end,
        it.turns,
]);

const refused = () => tableOf("Refused lines",
    ["line", "text", "number", "what it means", "what to do"],
    data.refused,
    0,
    (it) => [it.line,
        it.text,
        it.number,
        it.means,
        it.cure,
]);

const prepare = () => {
  text(document.querySelector("title"), `${data.title}, gsnap`);
  put("title", data.title);
  put("summary",
      `${counted(data.versions.length, "version")}, ${counted(data.tickets.length, "ticket")}, ${
          counted(data.programs.length, "program")}, ${counted(data.runs.length, "run")}; made by gsnap ${data.gsnap}`);
  put("filter-help", FILTER_HELP);
  put("keys-table", table("Keys", ["key", "does"], KEYS.map(([key, does]) => [key, does])));
  const refusedWords = data.refused.length ?
      [`${counted(data.refused.length, "line")} of the script ${data.refused.length === 1 ? "was" : "were"} refused.`] :
      [];
  put("notes", ...[...refusedWords, ...data.notes].map((it) => element("li", {}, it)));
  hide("runs-table", data.asked.length === 0);
  hide("refused-table", data.refused.length === 0);
  hide("tickets-table", data.tickets.length === 0);
  refreshers.versions = unfold("versions-table", versionsTable);
  refreshers.counts = unfold("counts-table", countsTable);
  refreshers.changes = data.drawn ? unfold("changes-table", edgesTable) : () => {};
  unfold("tickets-table", ticketsTable);
  unfold("runs-table", asked);
  unfold("refused-table", refused);
  let width = window.innerWidth;
  window.addEventListener("resize", () => {
    if (window.innerWidth !== width) drawLine();
    width = window.innerWidth;
  });
};

prepare();
readLink();
listen();
writeLink();
render(true);
document.documentElement.dataset.ready = "yes";
