// The line of versions with its tickets, and the charts of counts over the versions.

const LINE = {
  left: 46,
  right: 14,
  top: 12,
  edges: 56,
  bars: 52,
  ticket: 13,
  axis: 22,
  mostTickets: 10
};

const changeWords = (version) => {
  if (version.added === undefined) return version.edges === null ? "its edges were not listed" : counted(version.edges, "edge");
  const words = [counted(version.edges, "edge")];
  if (version.added) words.push(`${grouped(version.added)} added`);
  if (version.removed) words.push(`${grouped(version.removed)} removed`);
  if (version.reweighted) words.push(`${grouped(version.reweighted)} with another weight`);
  return words.join(", ");
};

const factsOf = (version) => {
  const line =
      `Version ${version.number}, line ${version.line} of the script: ${counted(version.vertices, "vertex", "vertices")}`;
  const parts = version.components ? `, ${counted(version.components.count, "component")}` : "";
  return `${line}, ${changeWords(version)}${parts}.`;
};

const shownVersions = () => windowed(data.versions, view.version, MOST_COLUMNS);

// Where the versions of the line are: a function from a version's number to x, and back.
const lineScale = (width, versions) => {
  const step = (width - LINE.left - LINE.right) / versions.length;
  const first = versions[0].number;
  return {
    step,
    x: (number) => LINE.left + (number - first + 0.5) * step,
    at: (x) => first + Math.max(0, Math.min(versions.length - 1, Math.floor((x - LINE.left) / step))),
  };
};

const greatestOf = (versions, name) => Math.max(1, ...versions.map((it) => it[name] || 0));

const edgesLine = (versions, scale) => {
  const most = greatestOf(versions, "edges");
  const y = (it) => LINE.top + LINE.edges * (1 - it.edges / most);
  const known = versions.filter((it) => it.edges !== null);
  const path = known.map((it, at) => `${at ? "L" : "M"}${scale.x(it.number).toFixed(1)},${y(it).toFixed(1)}`).join("");
  const dots =
      known.length <= 120 ? known.map((it) => drawn("circle", {cx: scale.x(it.number), cy: y(it), r: 3, class: "dot"})) : [];
  return [
    drawn("path", {d: path, class: "edges-line"}),
    ...dots,
    drawn("text", {x: 4, y: LINE.top + 8}, grouped(most)),
    drawn("text", {x: 4, y: LINE.top + 20}, "edges")
  ];
};

const changeBars = (versions, scale) => {
  const middle = LINE.top + LINE.edges + 8 + LINE.bars / 2;
  const most = Math.max(greatestOf(versions, "added"), greatestOf(versions, "removed"), greatestOf(versions, "reweighted"));
  const height = (count) => (count ? 2 + (LINE.bars / 2 - 2) * Math.sqrt(count / most) : 0);
  const width = Math.max(1, Math.min(14, 0.6 * scale.step));
  const bar = (it, count, isUp, name) => drawn("rect", {
    x: scale.x(it.number) - width / 2,
    y: isUp ? middle - height(count) : middle,
    width,
    height: height(count),
    class: name
  });
  const bars = versions.flatMap(
      (it) => [it.added ? bar(it, it.added, true, "came") : null,
          it.removed ? bar(it, it.removed, false, "went") : null,
          it.reweighted ?
              drawn("circle", {cx: scale.x(it.number), cy: middle, r: Math.max(1.5, width / 3), class: "reweighted"}) :
              null,
  ]);
  return [
    drawn("line", {
      x1: LINE.left,
      x2: scale.x(versions[versions.length - 1].number) + scale.step / 2,
      y1: middle,
      y2: middle,
      class: "axis"
    }),
    ...bars
  ];
};

const lastOf = (ticket) => (ticket.last === null ? lastVersion : ticket.last);

// The rows in which the spans of tickets are drawn, so that no two in a row overlap.
const ticketRows = (tickets) => {
  const rows = [];
  for (const ticket of tickets) {
    const first = Math.min(ticket.version, ticket.first);
    const row = rows.find((it) => it.end < first) || rows[rows.push({end: -1, tickets: []}) - 1];
    row.end = lastOf(ticket);
    row.tickets.push(ticket);
  }
  return rows.slice(0, LINE.mostTickets);
};

const ticketSpans = (rows, scale, versions, top) => {
  const [first, last] = [versions[0].number, versions[versions.length - 1].number];
  const span = (ticket, y) => {
    const [from, to] = [Math.max(first, ticket.version), Math.min(last, lastOf(ticket))];
    if (from > to) return null;
    const width = Math.max(4, scale.x(to) - scale.x(from) + (ticket.last === null ? scale.step / 2 : 0));
    const label = scale.step > 16 || width > 24 ?
        drawn("text", {x: scale.x(from) + 8, y: y + 3.5, class: "ticket-name"}, ticket.ticket) :
        null;
    return drawn(
        "g",
        {class: "ticket", "data-ticket": ticket.ticket},
        drawn("title", {}, ticketWords(ticket)),
        drawn("rect", {x: scale.x(from), y: y - 4, width, height: 9, rx: 4}),
        drawn("circle", {cx: scale.x(from), cy: y + 0.5, r: 4.5}),
        label,
    );
  };
  return rows.flatMap((row, at) => row.tickets.map((ticket) => span(ticket, top + at * LINE.ticket)));
};

const ticketWords = (ticket) => {
  const end = ticket.last === null ? "open at the end" : `closed while version ${ticket.last} was the newest`;
  return `Ticket ${ticket.ticket} holds version ${ticket.version}; given while version ${ticket.first} was the newest, ${end}.`;
};

const axisTexts = (versions, scale, y) => {
  const every = Math.max(1, Math.ceil(26 / scale.step));
  return versions.filter((it) => it.number % every === 0 || it.number === view.version)
      .filter((it) => it.number === view.version || Math.abs(scale.x(it.number) - scale.x(view.version)) > 22)
      .map((it) => drawn("text",
               {x: scale.x(it.number), y, class: it.number === view.version ? "axis-number chosen" : "axis-number"},
               it.number));
};

const drawLine = () => {
  const box = byId("timeline");
  const versions = shownVersions();
  const width = Math.max(300, box.clientWidth || 900);
  const scale = lineScale(width, versions);
  const rows = ticketRows(data.tickets);
  const ticketsTop = LINE.top + LINE.edges + LINE.bars + 20;
  const height = ticketsTop + rows.length * LINE.ticket + LINE.axis - 6;
  const chosen = drawn("rect", {
    x: scale.x(view.version) - Math.max(3, scale.step / 2),
    y: 2,
    width: Math.max(6, scale.step),
    height: height - 4,
    rx: 4,
    class: "chosen-column"
  });
  const svg = drawn(
      "svg",
      {viewBox: `0 0 ${width} ${height}`, width, height, "aria-hidden": "true"},
      chosen,
      ...edgesLine(versions, scale),
      ...changeBars(versions, scale),
      ...ticketSpans(rows, scale, versions, ticketsTop),
      ...axisTexts(versions, scale, height - 5),
  );
  put("timeline", svg);
  svg.addEventListener("click", (event) => {
    const {left, width: shown} = svg.getBoundingClientRect();
    go({version: scale.at(((event.clientX - left) * width) / shown)});
  });
};

// A patch of a colour, given by its class or its style, with what it stands for.
const keyWord = (look, label) => element("span", {class: "key-word"}, element("span", look), label);

const keyWords = (...pairs) => pairs.flatMap(([name, label]) => [keyWord({class: `swatch ${name}`}, label), " "]);

const drawVersions = () => {
  const version = data.versions[view.version];
  drawLine();
  put("timeline-key",
      ...keyWords(["came", "edges added"],
          ["went", "edges removed"],
          ["reweighted", "with another weight"],
          ...(data.tickets.length ? [["ticket-swatch", "ticket: from the version that it holds to its release"]] : [])));
  const box = byId("timeline");
  box.setAttribute("aria-valuemin", 0);
  box.setAttribute("aria-valuemax", lastVersion);
  box.setAttribute("aria-valuenow", view.version);
  box.setAttribute("aria-valuetext", factsOf(version));
  byId("version").value = view.version;
  byId("version").max = lastVersion;
  put("version-count", `of 0 to ${lastVersion}`);
  const held = data.tickets.filter((it) => it.version === view.version).map((it) => it.ticket);
  put("version-facts", factsOf(version), held.length ? ` Held by ticket ${held.join(", ")}.` : "");
  byId("version-back").disabled = view.version === 0;
  byId("version-on").disabled = view.version === lastVersion;
};

const versionButton = (number) => {
  const button = element("button", {type: "button", class: "link"}, number);
  button.addEventListener("click", () => go({version: number}));
  return button;
};

const versionsTable = () => tableOf("Versions",
    ["version", "vertices", "edges", "added", "removed", "other weight", "components"],
    data.versions,
    view.version,
    (it) => [versionButton(it.number),
        ...[it.vertices, it.edges, it.added, it.removed, it.reweighted, it.components && it.components.count].map(countOrNone),
]);

const countOrNone = (it) => (it === null || it === undefined ? "" : grouped(it));

const ticketsTable = () => tableOf("Tickets",
    ["ticket", "holds version", "given at version", "closed at version"],
    data.tickets,
    0,
    (it) => [it.ticket,
        versionButton(it.version),
        it.first,
        it.last === null ? "open" : it.last,
]);

// Charts

const lastPrinted = (run) => (run.lines.length ? run.lines[run.lines.length - 1] : null);

const programSeries = (program) => {
  const name = data.programs[program - 1].name;
  const shown = runsOfProgram(program);
  const series = (label, valueOf) =>
      ({name: `${name}: ${label}`, values: new Map(shown.map((run) => [run.version, valueOf(run)]))});
  const found = [];
  if (shown.some((run) => run.lines.length)) found.push(series("last number printed", lastPrinted));
  found.push(series("turns", (run) => run.turns));
  if (shown.some((run) => run.differ !== null)) found.push(series("entries that differ", (run) => run.differ));
  const sizes =
      new Map(shown.map((run) => [run, new Map([...endOf(run).sets].map(([set, members]) => [set, members.length]))]));
  for (const set of new Set([...sizes.values()].flatMap((it) => [...it.keys()])))
    found.push(series(`size of ${set}`, (run) => sizes.get(run).get(set)));
  return found;
};

const versionSeries = (name, valueOf) => ({name, values: new Map(data.versions.map((it) => [it.number, valueOf(it)]))});

let keptSeries = null;

const isChanging = (series) => new Set([...series.values.values()].map(String)).size > 1;

// Each count with its value on each version that has it; those that never change come last.
const allSeries = () => {
  if (keptSeries) return keptSeries;
  const found = [
    versionSeries("edges", (it) => it.edges),
    versionSeries("vertices", (it) => it.vertices),
    versionSeries("components", (it) => (it.components ? it.components.count : null))
  ];
  for (let program = 1; program <= data.programs.length; program += 1) found.push(...programSeries(program));
  const known = found.filter((it) => [...it.values.values()].some((value) => value !== null && value !== undefined));
  keptSeries = [...known.filter(isChanging), ...known.filter((it) => !isChanging(it))];
  return keptSeries;
};

const plotted = (value) => (value === null || value === undefined ? null :
        value === "true"                                          ? 1 :
        value === "false"                                         ? 0 :
                                                                    Number(value));

// What a count is on the shown version, and where it was last another.
const seriesWords = (series) => {
  const now = series.values.get(view.version);
  if (now === null || now === undefined) return `none on version ${view.version}`;
  for (let it = view.version - 1; it >= 0; it -= 1) {
    const before = series.values.get(it);
    if (before === null || before === undefined || String(before) === String(now)) continue;
    return `${grouped(now)}, and ${grouped(before)} on version ${it}`;
  }
  return `${grouped(now)}, and no other before`;
};

const CHART = {
  width: 250,
  height: 92,
  left: 8,
  right: 8,
  top: 10,
  bottom: 10
};

const chartPath = (points) => {
  let path = "";
  let before = null;
  for (const [x, y, at] of points) {
    path += before !== null && at === before + 1 ? `L${x.toFixed(1)},${y.toFixed(1)}` : `M${x.toFixed(1)},${y.toFixed(1)}`;
    before = at;
  }
  return path;
};

const chart = (series) => {
  const versions = shownVersions();
  const known = versions.map((it) => [it.number, plotted(series.values.get(it.number))]).filter(([, value]) => value !== null);
  const values = known.map(([, value]) => value);
  const [least, greatest] = [Math.min(...values), Math.max(...values)];
  const step = (CHART.width - CHART.left - CHART.right) / Math.max(1, versions.length - 1);
  const x = (number) =>
      CHART.left + (versions.length > 1 ? (number - versions[0].number) * step : (CHART.width - CHART.left - CHART.right) / 2);
  const y = (value) => CHART.top +
      (CHART.height - CHART.top - CHART.bottom) * (greatest > least ? 1 - (value - least) / (greatest - least) : 0.5);
  const points = known.map(([number, value]) => [x(number), y(value), number]);
  const dots = points.length <= 60 ? points.map(([cx, cy]) => drawn("circle", {cx, cy, r: 2.2, class: "dot"})) : [];
  const now = points.find(([, , number]) => number === view.version);
  const svg = drawn(
      "svg",
      {
        viewBox: `0 0 ${CHART.width} ${CHART.height}`,
        role: "img",
        "aria-label": `${series.name}: ${seriesWords(series)}; from ${grouped(least)} to ${grouped(greatest)}`
      },
      drawn("line", {x1: x(view.version), x2: x(view.version), y1: 2, y2: CHART.height - 2, class: "chosen-line"}),
      drawn("path", {d: chartPath(points), class: "series"}),
      ...dots,
      now ? drawn("circle", {cx: now[0], cy: now[1], r: 4.5, class: "now"}) : null,
  );
  svg.addEventListener("click", (event) => {
    const {left, width} = svg.getBoundingClientRect();
    const at = Math.round((((event.clientX - left) * CHART.width) / width - CHART.left) / step) || 0;
    go({version: versions[0].number + Math.max(0, Math.min(versions.length - 1, at))});
  });
  return element("figure",
      {"data-series": series.name},
      element("figcaption", {}, series.name),
      svg,
      element("p", {class: "facts"}, seriesWords(series)));
};

const drawCharts = () => put("charts", ...allSeries().map(chart));

const countsTable = () => tableOf("Counts over the versions",
    ["version", ...allSeries().map((it) => it.name)],
    data.versions,
    view.version,
    (it) => [versionButton(it.number),
        ...allSeries().map((series) => countOrNone(series.values.get(it.number))),
]);
