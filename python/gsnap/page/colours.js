// Colours of entries: one scale for each vector of a program, the same in all versions and turns.

const ORDERED = ["#f9d65c", "#f3a545", "#e36f4b", "#c9416a", "#962d7c", "#5b2a83"];
const APART = ["#4e79a7", "#f28e2b", "#59a14f", "#e15759", "#76b7b2", "#edc948", "#b07aa1", "#ff9da7", "#9c755f", "#7f7f7f"];
const UNSET = "var(--unset)";
const MOST_BINS = 10;

const compared = (a, b) => (a < b ? -1 : a > b ? 1 : 0);

const channels = (colour) => [1, 3, 5].map((at) => parseInt(colour.slice(at, at + 2), 16));

// The colour at a place from 0 to 1 in a row of colours.
const between = (colours, place) => {
  const at = Math.min(colours.length - 2, Math.floor(place * (colours.length - 1)));
  const part = place * (colours.length - 1) - at;
  const [from, to] = [channels(colours[at]), channels(colours[at + 1])];
  const mixed = from.map((it, channel) => Math.round(it + part * (to[channel] - it)));
  return `#${mixed.map((it) => it.toString(16).padStart(2, "0")).join("")}`;
};

// Black or white, whichever is read more easily on a colour.
const inkOn = (colour) => {
  if (!colour.startsWith("#")) return "var(--ink)";
  const [red, green, blue] = channels(colour);
  return 0.299 * red + 0.587 * green + 0.114 * blue > 150 ? "#111111" : "#ffffff";
};

// Every entry that a vector has in the end or at a turn of any run of the program.
const entriesOfProgram = (program, vector) => {
  const found = new Set();
  for (const run of data.runs) {
    if (run.program !== program) continue;
    for (const state of [run.state, ...(run.states || [])]) {
      const [, encoded] = state.vectors.find(([name]) => name === vector) || [null, {all: []}];
      for (const it of encoded.all || encoded.to) found.add(number(it));
    }
  }
  return found;
};

class Scale {
  // Bins of ascending entries, each with its colour; the entry that the vector begins with has a colour of its own.
  constructor(program, vector, kind) {
    const initial = data.programs[program - 1].initial.find(([name]) => name === vector);
    this.initial = initial ? number(initial[1]) : null;
    const entries = [...entriesOfProgram(program, vector)].filter((it) => it !== this.initial).sort(compared);
    const count = Math.min(MOST_BINS, entries.length);
    this.bins = [];
    for (let at = 0; at < count; at += 1) {
      const part = entries.slice(Math.floor((at * entries.length) / count), Math.floor(((at + 1) * entries.length) / count));
      const place = count > 1 ? at / (count - 1) : 0;
      const colour = kind === "apart" ? APART[at % APART.length] : between(ORDERED, place);
      this.bins.push({least: part[0], greatest: part[part.length - 1], colour});
    }
  }

  colourOf(entry) {
    if (entry === this.initial) return UNSET;
    const bin = this.bins.find((it) => entry <= it.greatest);
    return bin ? bin.colour : UNSET;
  }

  legend() {
    const rows =
        this.bins.map((it) => [it.colour, it.least === it.greatest ? String(it.least) : `${it.least} to ${it.greatest}`]);
    return this.initial === null ? rows : [[UNSET, `${this.initial}, as it began`], ...rows];
  }
}

const scales = new Map();

const scaleOf = (program, vector, kind) => {
  const place = `${program} ${kind} ${vector}`;
  if (!scales.has(place)) scales.set(place, new Scale(program, vector, kind));
  return scales.get(place);
};
