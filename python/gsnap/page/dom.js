// How the page makes its elements. Every text goes through `text`, which no markup can get out of.

const SVG = "http://www.w3.org/2000/svg";

// How many rows each of the page's tables has at most, so that all of them together have fewer than 2,000; how many columns the
// line of versions has, and how many choices a list.
const MOST_ROWS = 250;
const MOST_COLUMNS = 2000;
const MOST_OPTIONS = 2000;

const text = (node, string) => {
  node.textContent = String(string);
  return node;
};

const byId = (id) => document.getElementById(id);

const filled = (node, attributes, children) => {
  for (const [name, value] of Object.entries(attributes)) {
    if (value !== null && value !== undefined) node.setAttribute(name, String(value));
  }
  for (const child of children) {
    if (child === null || child === undefined) continue;
    node.append(child instanceof Node ? child : text(document.createTextNode(""), child));
  }
  return node;
};

const element = (name, attributes = {}, ...children) => filled(document.createElement(name), attributes, children);

const drawn = (name, attributes = {}, ...children) => filled(document.createElementNS(SVG, name), attributes, children);

const put = (id, ...children) => {
  const node = byId(id);
  node.replaceChildren();
  return filled(node, {}, children);
};

const hide = (id, isHidden) => {
  byId(id).hidden = isHidden;
};

const grouped = (number) => String(number).replace(/\B(?=(\d{3})+(?!\d))/g, ",");

const counted = (number, one, more) => `${grouped(number)} ${number === 1 ? one : more || `${one}s`}`;

const wordsOf = (it) => (it instanceof Node ? it.textContent : String(it));

// A table of rows, each a list of texts or nodes. Texts that are numbers are aligned to the right.
const table = (caption, heads, rows) => {
  const isNumber = heads.map((_, at) => rows.length > 0 && rows.every((row) => /^-?[\d,]*$/.test(wordsOf(row[at]))));
  const cell = (it, at) => element("td", {class: isNumber[at] ? "number" : null}, it);
  return element(
      "table",
      {},
      element("caption", {}, caption),
      element("thead",
          {},
          element(
              "tr", {}, ...heads.map((it, at) => element("th", {scope: "col", class: isNumber[at] ? "number" : null}, it)))),
      element("tbody", {}, ...rows.map((row) => element("tr", {}, ...row.map(cell)))),
  );
};

// Puts a table into a `details` that is opened, and takes it away when it is closed.
const unfold = (id, make) => {
  const details = byId(id);
  const fill = () => {
    const summary = details.querySelector("summary");
    details.replaceChildren(summary);
    if (details.open) details.append(element("div", {class: "scrolled", tabindex: 0}, make()));
  };
  details.addEventListener("toggle", fill);
  return () => {
    if (details.open) fill();
  };
};

// The part of a long list that is about the place `at`.
const windowed = (list, at, most) => {
  const first = Math.max(0, Math.min(list.length - most, at - Math.floor(most / 2)));
  return list.slice(first, first + most);
};

// A table of a list, of which only the rows about the place `at` are shown if it is long.
const tableOf = (caption, heads, list, at, rowOf) => {
  const shown = windowed(list, at, MOST_ROWS);
  const rows = table(caption, heads, shown.map(rowOf));
  if (shown.length === list.length) return rows;
  return element("div", {}, element("p", {class: "facts"}, `${grouped(shown.length)} of ${grouped(list.length)} rows`), rows);
};

const choose = (id, options, chosen) => {
  const select = byId(id);
  const same =
      select.options.length === options.length && options.every(([value], at) => select.options[at].value === String(value));
  if (!same) put(id, ...options.map(([value, label]) => element("option", {value}, label)));
  select.value = String(chosen);
};
