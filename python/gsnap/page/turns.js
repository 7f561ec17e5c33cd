// The run of the chosen program on the version: its end, the slider of turns, what it printed, and the statement that comes next.

const PACE = 900;
const MOST_PRINTED = 200;

let player = null;

const endWords = (run) => {
  if (run.end === "finished") return `finished after ${counted(run.turns, "turn")}`;
  if (run.end === "turns-over") return `ended by its bound after ${counted(run.turns, "turn")}`;
  return `ended by a fault in statement ${run.statement} after ${counted(run.turns, "turn")}`;
};

const runWords = (run) => {
  const asked = run.line ? `asked for by line ${run.line} of the script` : "run for this page";
  const printed =
      run.lines.length ? `; it printed ${run.lines.slice(0, 8).join(", ")}${run.lines.length > 8 ? " .." : ""}` : "";
  const differ = run.differ === null ?
      "" :
      ` ${counted(run.differ, "entry differs", "entries differ")} from its run on version ${run.former.version}.`;
  return `On version ${run.version} it ${endWords(run)}${printed}. It was ${asked}.${differ}`;
};

// The number of the statement that comes next after a turn, or null at the end of the program.
const nextOf = (run, turn) => {
  if (turn >= run.turns && run.end === "fault") return run.statement;
  return turn < run.next.length ? run.next[turn] : null;
};

const nextWords = (run, turn) => {
  if (turn >= run.turns && run.end === "finished") return "The program is at its end.";
  const next = nextOf(run, turn);
  const piece = data.programs[run.program - 1].pieces.find(([, number]) => number && number === next);
  if (!piece) return "";
  const line = piece[0].replace(/\s+/g, " ");
  return turn >= run.turns && run.end === "fault" ? `The fault is in: ${line}` : `Next comes: ${line}`;
};

const turnWords = (run, turn) => {
  const changed = changedIn(run, turn);
  const sets = [...stateAt(run, turn).sets].map(([name, it]) => `${name} has ${counted(it.length, "member")}`);
  const begun = turn === 0 ? "Before the first turn." : `Turn ${turn} changed ${counted(changed, "entry", "entries")}.`;
  return [begun, sets.length ? `${sets.join(", ")}.` : "", nextWords(run, turn)].filter(Boolean).join(" ");
};

const textNodes = (pieces, next) => pieces.map(([piece, number]) => {
  if (!number) return piece;
  return number === next ? element("mark", {title: "comes next"}, piece) : element("span", {}, piece);
});

// The program's text, of which the statement that comes next is marked, and where it is.
const drawText = (next) => {
  const program = data.programs[view.program - 1];
  put("text", ...(program ? textNodes(program.pieces, next) : []));
  const box = byId("text");
  const seen = box.querySelector("mark") || box.querySelector("span:last-of-type");
  if (seen) box.scrollTop = seen.offsetTop - box.clientHeight / 2;
};

const drawVertex = () => {
  const run = shownRun();
  if (view.vertex === null || !view.by) {
    put("vertex-facts", view.by ? "Choose a vertex to see in which turns its entry changed." : "");
    return;
  }
  const name = nameOf(view.vertex);
  const history = hasTurns(run) ? historyOf(run, view.by, view.vertex) : [];
  const rowOf = ([turn, it]) => [turn === 0 ? "before turn 1" : `in turn ${turn}`, it];
  const rows = tableOf(`When ${view.by} of ${name} changed`, ["turn", view.by], history, 0, rowOf);
  const now = shownState().vectors.get(view.by)[view.vertex];
  put("vertex-facts", `${view.by} of ${name} is ${now}.`, history.length ? rows : null);
};

const drawPrinted = (run, state) => {
  const lines = run.lines.slice(0, state.printed);
  const left = lines.length - MOST_PRINTED;
  put("printed",
      lines.length ? lines.slice(-MOST_PRINTED).join("\n") : "nothing",
      left > 0 ? `\n${left} lines before these` : "");
};

const noRunWords = () => (data.programs.length ? `There is no run of this program on version ${view.version}.` :
                                                 "The page was made without a program.");

const noTurnsWords = (run) =>
    (run.turns ? "The turns of this run were left out; what is shown is its end." : "The run has no turns.");

const drawSlider = (run, turn) => {
  const last = hasTurns(run) ? run.turns : 0;
  hide("turn-tools", last === 0);
  Object.assign(byId("turn"), {max: last, value: turn});
  byId("turn").setAttribute("aria-valuetext", `turn ${turn} of ${last}`);
  put("turn-count", `turn ${turn} of ${last}`);
  byId("turn-back").disabled = turn === 0;
  byId("turn-on").disabled = turn >= last;
};

const drawTurns = () => {
  const run = shownRun();
  choose("program", data.programs.length ? data.programs.map((it, at) => [at + 1, it.name]) : [["0", "none"]], view.program);
  if (!run) {
    put("run-facts", noRunWords());
    hide("turn-tools", true);
    ["turn-facts", "printed", "vertex-facts"].forEach((id) => put(id));
    drawText(null);
    return;
  }
  const turn = shownTurn(run);
  put("run-facts", runWords(run));
  drawSlider(run, turn);
  put("turn-facts", hasTurns(run) && run.turns ? turnWords(run, turn) : noTurnsWords(run));
  drawPrinted(run, shownState());
  drawVertex();
  drawText(nextOf(run, turn));
};

const pause = () => {
  clearInterval(player);
  player = null;
  text(byId("play"), "Play").setAttribute("aria-pressed", "false");
};

const stepTurn = (by) => {
  const run = shownRun();
  if (hasTurns(run)) go({turn: Math.max(0, shownTurn(run) + by)});
};

// Goes on by a turn at a time, from the first if it is at the last.
const play = () => {
  const run = shownRun();
  if (player !== null || !hasTurns(run) || !run.turns) {
    pause();
    return;
  }
  if (shownTurn(run) >= run.turns) go({turn: 0});
  text(byId("play"), "Pause").setAttribute("aria-pressed", "true");
  player = setInterval(() => {
    stepTurn(1);
    const now = shownRun();
    if (!now || shownTurn(now) >= now.turns) pause();
  }, PACE);
};
