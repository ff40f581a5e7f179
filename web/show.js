"use strict";
// Shows what the machine answered. All text of a program is set as text, so none of it can become part of the page's markup.

const $ = (id) => document.getElementById(id);

// An element with attributes and children, which are elements or texts.
function element(name, attributes = {}, ...children) {
  const made = document.createElement(name);
  for (const [key, value] of Object.entries(attributes)) {
    if (key.startsWith("on")) made.addEventListener(key.slice(2), value);
    else if (value === true) made.setAttribute(key, "");
    else if (value !== false && value !== null && value !== undefined) made.setAttribute(key, value);
  }
  made.append(...children);
  return made;
}

// ---- threads

function threadShown(thread, next, step) {
  const words = thread.state === "ended" ? (thread.by ? `ended by ${thread.by}` : "ended") : thread.number === next ? "next" : "";
  const head = element("h3", {}, element("span", { class: `who who${thread.number % 4}` }, String(thread.number)), ` thread ${thread.number} `, element("span", { class: "small" }, words));
  if (thread.state === "lives") head.append(element("button", { onclick: () => step(thread.number), title: `A turn of thread ${thread.number}` }, "Step"));
  const lines = element("div", { class: "lines" });
  for (const frame of thread.frames)
    frame.lines.forEach((line, at) => lines.append(element("div", { class: at === 0 ? "frame" : "" }, line)));
  return element("section", { class: thread.number === next ? "thread next" : "thread", "data-thread": thread.number, "aria-label": `Thread ${thread.number} ${words}` }, head, lines);
}

function showThreads(view, step) {
  $("threads").replaceChildren(...view.threads.map((thread) => threadShown(thread, view.state.next, step)));
}

// ---- static fields and classes

function showStatics(view) {
  $("statics").replaceChildren(
    ...view.statics.map((line) => element("div", { class: "static" }, line)),
    ...view.classes.map((line) => element("div", { class: "class-state small" }, line)),
  );
}

// ---- the heap

const SIZES = [[4, "cells of 4 words"], [32, "cells of 32 words"], [256, "cells of 256 words"]];
const shortName = (name) => name.slice(name.lastIndexOf("/") + 1);

// How the place in a phase reads.
function phaseWords(state, view) {
  const at = state.position;
  switch (state.phase) {
    case "idle": return "idle: the next step begins a cycle";
    case "statics": return `statics: at static slot ${at[0]}`;
    case "frames": return `frames: at thread ${at[0]}, frame ${at[1]}, entry ${at[2]}`;
    case "mark": return `mark: at word ${at[0]} of the front grey cell`;
    default: return `append: at cell ${at[0]}`;
  }
}

const coloursOf = (cells) => {
  const counts = { free: 0, white: 0, grey: 0, black: 0 };
  for (const cell of cells) counts[cell.colour]++;
  return counts;
};

const MOST_CELLS = 2000;

function cellShown(cell, view, choose) {
  const held = view.held.get(cell.number);
  const what = cell.colour === "free" ? "free" : held ? shortName(held.kind) : "no path";
  const classes = ["cell", cell.colour];
  if (cell.colour !== "free" && !held) classes.push("unreached");
  if (view.state.phase === "append" && view.state.position[0] === cell.number) classes.push("here");
  const label = cell.line + (held ? ` ${held.kind}` : "") + (held && held.owner !== "-" ? `, monitor of thread ${held.owner}` : "");
  const made = element("button", {
    class: classes.join(" "), "data-cell": cell.number, "data-birth": cell.birth ?? null, "aria-label": label, title: label,
    "aria-pressed": "false", onclick: () => choose(cell),
  });
  made.append(`${cell.number}${cell.birth === undefined ? "" : ` #${cell.birth}`}`, element("small", {}, what));
  if (held && held.owner !== "-") made.append(element("small", {}, `held by ${held.owner}`));
  return made;
}

function showHeap(view, choose) {
  const counts = coloursOf(view.cells);
  $("phase").textContent = `Phase ${phaseWords(view.state, view)}. Cells: ${counts.black} black, ${counts.grey} grey, ${counts.white} white, ${counts.free} free.`;
  $("phase").dataset.phase = view.state.phase;
  const shown = view.cells.slice(0, MOST_CELLS);
  const groups = SIZES.map(([words, title]) => [title, shown.filter((cell) => cell.words === words)]).filter(([, cells]) => cells.length);
  $("heap").replaceChildren(...groups.map(([title, cells]) =>
    element("div", { class: "size", role: "group", "aria-label": title }, element("h3", {}, title), ...cells.map((cell) => cellShown(cell, view, choose)))));
  if (view.cells.length > MOST_CELLS) $("heap").append(element("p", {}, `The first ${MOST_CELLS} of ${view.cells.length} cells are shown.`));
}

// ---- the grey list and the free lists

const MOST_LISTED = 200;
const LISTS = [["grey", "Grey list, the next to turn black first"], ...SIZES.map(([words]) => [String(words), `Free cells of ${words} words, the next to be taken first`])];

// A list's cells in order; each can be chosen, as in the heap.
function listShown(key, title, cells, choose) {
  const items = cells.slice(0, MOST_LISTED).map((cell) => {
    const birth = cell.birth === undefined ? "" : ` #${cell.birth}`;
    return element("li", {}, element("button", { class: `listed ${cell.colour}`, "data-listed": cell.number, "aria-label": `cell ${cell.number}${birth}`, onclick: () => choose(cell) }, `${cell.number}${birth}`));
  });
  const left = cells.length - items.length, rest = cells.length === 0 ? " none" : left > 0 ? ` and ${left} more` : "";
  return element("div", { class: "cell-list", "data-list": key }, element("h3", { id: `list-${key}` }, title), element("ol", { "aria-labelledby": `list-${key}` }, ...items), element("span", { class: "small" }, rest));
}

function showLists(view, choose) {
  const holding = new Map(view.cells.filter((cell) => cell.birth !== undefined).map((cell) => [cell.birth, cell]));
  const there = LISTS.filter(([key]) => key === "grey" || view.cells.some((cell) => String(cell.words) === key));
  $("lists").replaceChildren(...there.map(([key, title]) =>
    listShown(key, title, view.lists[key].map((it) => (key === "grey" ? holding.get(it) : view.cells[it])), choose)));
}

const SVG = "http://www.w3.org/2000/svg";

function drawing(name, attributes = {}, ...children) {
  const made = document.createElementNS(SVG, name);
  for (const [key, value] of Object.entries(attributes)) made.setAttribute(key, value);
  made.append(...children);
  return made;
}

// The references from one cell, or from all.
function showArrows(view, from) {
  $("heap").querySelector("svg")?.remove();
  const cellOf = new Map(view.cells.filter((cell) => cell.birth !== undefined).map((cell) => [cell.birth, cell.number]));
  const box = $("heap").getBoundingClientRect(), lines = [];
  for (const [number, held] of view.held) {
    if (from !== null && from !== number) continue;
    for (const word of held.words) {
      if (!word.startsWith("#")) continue;
      const target = cellOf.get(Number(word.slice(1)));
      const a = $("heap").querySelector(`[data-cell="${number}"]`), b = $("heap").querySelector(`[data-cell="${target}"]`);
      if (!a || !b) continue;
      const one = a.getBoundingClientRect(), two = b.getBoundingClientRect();
      const x1 = one.left + one.width / 2 - box.left, y1 = one.bottom - 4 - box.top;
      const x2 = two.left + two.width / 2 - box.left, y2 = two.bottom - 4 - box.top;
      const low = Math.max(y1, y2) + 16;
      lines.push(drawing("path", { d: `M${x1} ${y1}C${x1} ${low} ${x2} ${low} ${x2} ${y2}`, "marker-end": "url(#tip)", class: "arrow" }));
    }
  }
  if (lines.length === 0) return;
  const tip = drawing("marker", { id: "tip", viewBox: "0 0 8 8", refX: 7, refY: 4, markerWidth: 7, markerHeight: 7, orient: "auto" }, drawing("path", { d: "M0 0L8 4L0 8z", fill: "#c2410c" }));
  const svg = drawing("svg", { width: box.width, height: box.height, "aria-hidden": "true" }, drawing("defs", {}, tip), ...lines);
  for (const line of lines) {
    line.setAttribute("fill", "none");
    line.setAttribute("stroke", "#c2410c");
    line.setAttribute("stroke-width", "2");
  }
  $("heap").append(svg);
}

// What is in a cell.
function showCell(view, cell) {
  for (const it of $("heap").querySelectorAll("[aria-pressed]")) it.setAttribute("aria-pressed", String(cell !== null && Number(it.dataset.cell) === cell.number));
  if (cell === null) {
    $("object").replaceChildren();
    return;
  }
  const held = view.held.get(cell.number), lines = [];
  if (cell.colour === "free") lines.push(`cell ${cell.number} of ${cell.words} words is free`);
  else if (!held) lines.push(`cell ${cell.number} has #${cell.birth}, ${cell.colour}, to which no path leads any more`);
  else {
    lines.push(`cell ${cell.number} has #${cell.birth}, ${cell.colour}, of ${held.kind}`);
    lines.push(`words ${held.words.join(" ") || "none"}`);
    if (held.owner !== "-") lines.push(`monitor of thread ${held.owner}, entered ${held.entries} times`);
    if (held.thread !== "-") lines.push(`thread ${held.thread} was started on it`);
  }
  $("object").replaceChildren(...lines.map((line) => element("div", { class: "lines" }, line)));
}

// ---- the text's gutter

function showGutter(text, marks, breakpoints, places, refusedLine, toggle) {
  const codeLines = new Map();
  for (const [method, lines] of places) for (const [pc, line] of lines) codeLines.set(line, { method, pc });
  const count = text.split("\n").length;
  const lines = [];
  for (let number = 1; number <= count; number++) {
    const here = marks.get(number) ?? [], place = codeLines.get(number), stops = breakpoints.has(number);
    const classes = ["line"];
    if (here.length) classes.push("here");
    if (stops) classes.push("break");
    if (number === refusedLine) classes.push("refused");
    const line = element("div", { class: classes.join(" "), "data-line": number });
    for (const thread of here) line.append(element("span", { class: `who who${thread % 4}`, "data-thread": thread, title: `thread ${thread} stands here` }, String(thread)));
    if (place) line.append(element("button", { "aria-pressed": String(stops), "aria-label": `Breakpoint at line ${number}, ${place.method} pc ${place.pc}`, title: `${place.method} pc ${place.pc}: breakpoint`, onclick: () => toggle(number, place) }, String(number)));
    else line.append(element("span", {}, String(number)));
    lines.push(line);
  }
  $("gutter").replaceChildren(...lines);
  $("gutter").scrollTop = $("text").scrollTop;
}

// ---- the journal

const OUTCOMES = { d: "done", o: "object made", n: "no room", f: "fault" };

function rowWords(row) {
  const [actor, outcome] = row.split(" ");
  return `${actor === "c" ? "collector" : `thread ${actor}`} ${OUTCOMES[outcome]}`;
}

function showRows(first, rows, at, go) {
  const shown = rows.map((row, index) => {
    const number = first + index + 1;
    return element("button", { role: "option", tabindex: "-1", "data-row": number, "data-text": row, class: number > at ? "later" : "", "aria-selected": String(number === at), onclick: () => go(number) }, `${number} ${rowWords(row)}`);
  });
  if (first === 0) shown.unshift(element("button", { role: "option", tabindex: "-1", "data-row": 0, "aria-selected": String(at === 0), onclick: () => go(0) }, "0 start"));
  $("journal").replaceChildren(...shown);
  const chosen = $("journal").querySelector('[aria-selected="true"]');
  if (chosen) $("journal").scrollTop = Math.max(0, chosen.offsetTop - $("journal").offsetTop - $("journal").clientHeight / 2);
}

// ---- every schedule

const MOST_OUTCOMES = 1000;

function outcomeShown(outcome, number, open) {
  const code = /^fault (F\d+)/.exec(outcome.words)?.[1], count = outcome.turns.length;
  const made = element("li", { "data-outcome": number }, element("strong", {}, outcome.words), ` after ${count} turns `);
  made.append(element("button", { onclick: () => open(outcome, number), "aria-label": `Open a run to outcome ${number}, ${outcome.words}` }, "Open"));
  if (code) made.append(element("div", { class: "small" }, DATA.codes[code] ?? ""));
  for (const line of outcome.ended) made.append(element("div", { class: "lines" }, line));
  if (outcome.output) made.append(element("pre", { tabindex: "0", "aria-label": `Output of outcome ${number}` }, outcome.output));
  return made;
}

function showExploration(found, open) {
  const shown = found.outcomes.slice(0, MOST_OUTCOMES);
  $("explored").textContent = shown.length < found.outcomes.length ? `${found.last}. The first ${MOST_OUTCOMES} outcomes are shown.` : `${found.last}.`;
  $("outcomes").replaceChildren(...shown.map((outcome, index) => outcomeShown(outcome, index + 1, open)));
}

function showNoExploration() {
  $("explored").textContent = "";
  $("outcomes").replaceChildren();
}

// ---- the timeline

const BANDS = { idle: "#e8e4d8", statics: "#c9dff2", frames: "#bfe3cf", mark: "#f3d9a4", append: "#eec4c0" };
const AREAS = [["black", "#1d2328"], ["grey", "#9aa3aa"], ["white", "#ffffff"], ["free", "#eef0f1"]];

function timelineDrawn(samples, total, at) {
  const width = 1000, height = 200, left = 40, right = 10, top = 34, bottom = 24;
  const cells = samples[0].cells.length, wide = width - left - right, high = height - top - bottom;
  const x = (row) => left + (total === 0 ? 0 : (row / total) * wide);
  const y = (count) => top + high - (cells === 0 ? 0 : (count / cells) * high);
  const svg = drawing("svg", { xmlns: SVG, viewBox: `0 0 ${width} ${height}`, role: "img", "aria-label": `Cells by colour and the phase over ${total} rows`, "font-family": "sans-serif", "font-size": 11 });
  svg.append(drawing("rect", { width, height, fill: "#fbfaf7" }));
  let below = samples.map(() => 0);
  for (const [colour, fill] of AREAS) {
    const above = samples.map((sample, index) => below[index] + sample.counts[colour]);
    const up = samples.map((sample, index) => `${x(sample.row).toFixed(1)} ${y(above[index]).toFixed(1)}`);
    const down = samples.map((sample, index) => `${x(sample.row).toFixed(1)} ${y(below[index]).toFixed(1)}`).reverse();
    svg.append(drawing("path", { d: `M${up.join("L")}L${down.join("L")}Z`, fill, stroke: "#5a646c", "stroke-width": 0.5 }));
    below = above;
  }
  samples.forEach((sample, index) => {
    const next = samples[index + 1];
    if (!next) return;
    const x1 = x(sample.row), x2 = x(next.row);
    svg.append(drawing("rect", { x: x1, y: 14, width: Math.max(0.3, x2 - x1), height: 8, fill: BANDS[sample.phase] }));
    if (next.births > sample.births) svg.append(drawing("rect", { x: x2 - 0.5, y: 24, width: 1.2, height: 4, fill: "#1f7a3d" }));
    if (sample.freed) svg.append(drawing("rect", { x: x1 - 0.5, y: 29, width: 1.2, height: 4, fill: "#a11212" }));
  });
  const words = (text, wx, wy, anchor = "start") => svg.append(drawing("text", { x: wx, y: wy, "text-anchor": anchor, fill: "#1d2328" }, text));
  let key = left;
  for (const [phase, fill] of Object.entries(BANDS)) {
    svg.append(drawing("rect", { x: key, y: 2, width: 9, height: 9, fill }));
    words(phase, key + 12, 10);
    key += 64;
  }
  for (const [what, fill] of [["births", "#1f7a3d"], ["frees", "#a11212"]]) {
    svg.append(drawing("rect", { x: key, y: 2, width: 4, height: 9, fill }));
    words(what, key + 8, 10);
    key += 52;
  }
  for (const [colour, fill] of AREAS) {
    svg.append(drawing("rect", { x: key, y: 2, width: 9, height: 9, fill, stroke: "#5a646c", "stroke-width": 0.5 }));
    words(colour, key + 12, 10);
    key += 52;
  }
  words(String(cells), left - 4, top + 9, "end");
  words("0", left - 4, top + high, "end");
  words("row 0", left, height - 8);
  words(`row ${total}`, width - right, height - 8, "end");
  svg.append(drawing("line", { id: "now", x1: x(at), x2: x(at), y1: 14, y2: top + high, stroke: "#0b57a4", "stroke-width": 2 }));
  return { svg, rowAt: (share) => Math.round(Math.min(1, Math.max(0, (share * width - left) / wide)) * total), x };
}
