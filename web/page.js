"use strict";
// The page: what was chosen and done, and what its buttons, keys and files do.

const DATA = JSON.parse($("data").textContent);
const SHAPE = { small: 8, medium: 2, large: 1 }, LIMITS = { steps: 1000000, output: 65536 };
const ROOMY = { small: 40000, medium: 16000, large: 1400 };
const ALL_ROUNDS = 16777215, MOST_ROUNDS_TO_BREAK = 1000000, MOST_ROUNDS_ONE_BY_ONE = 100000, MOST_ROUNDS_AT_ONCE = 10000, ROWS_A_PAGE = 256, SAMPLES = 240, SAMPLED_CELLS = 60000;

const page = {
  machine: null,
  sources: [], // {name, text} or {name, bytes}
  shown: 0, // which source is shown
  moves: [], // what was done, up to the last row
  at: 0, // the row that is shown
  view: null, // what was answered there
  methods: null, // the classes with their methods, of the program that is loaded
  breakpoints: new Map(), // per source, lines with {method, pc}
  chosen: null, // the cell that is looked at, by its number
  pages: new Map(), // rows of the journal, so many at each number
  refusal: null,
  generation: 0, // how often the program was changed
  drawn: null, // the timeline
  explored: null, // what was found of every schedule, and of which program
  busy: false,
};

const numberIn = (id) => {
  const field = $(id), value = Math.floor(Number(field.value));
  return Number.isFinite(value) && field.value.trim() !== "" ? Math.max(0, value) : 0;
};

const setting = () => ({
  sources: page.sources,
  shape: { small: numberIn("small"), medium: numberIn("medium"), large: numberIn("large") },
  steps: numberIn("steps"),
  output: numberIn("output-limit"),
});

const say = (text) => { $("status").textContent = text; };

// ---- runs

const BUTTONS = ["start", "back", "forth", "end", "thread", "collect", "round", "run", "to-break", "rounds", "draw", "explore", "save-journal"];

function enable() {
  const there = page.view !== null && !page.busy, total = rowsOf(page.moves);
  for (const id of BUTTONS) $(id).disabled = !there;
  if (there) {
    $("start").disabled = $("back").disabled = page.at === 0;
    $("forth").disabled = $("end").disabled = page.at >= total;
  }
  $("stop").disabled = !page.busy;
}

// The machine's answers to some lines, on the heap that is set or on another; null where it was stopped or failed.
async function asked(lines, shape = setting().shape) {
  page.busy = true;
  enable();
  const late = setTimeout(() => {
    $("progress").hidden = false;
    $("progress").removeAttribute("value");
  }, 150);
  try {
    const answer = await page.machine.ask(inputOf({ ...setting(), shape }, lines), (done) => {
      $("progress").max = lines.length;
      $("progress").value = Math.min(done, lines.length);
    });
    $("foot").dataset.took = answer.took.toFixed(1);
    return new Answers(answer.output);
  } catch (error) {
    say(error.message === "stopped" ? "Stopped; nothing was done." : `The machine failed: ${error.message}. Nothing was done.`);
    return null;
  } finally {
    clearTimeout(late);
    $("progress").hidden = true;
    page.busy = false;
    enable();
  }
}

const LOOKS = ["state", "threads", "held", "statics", "heap", "lists", "output"];
const looks = () => [...LOOKS, ...(page.methods ?? []).map((klass) => `class ${klass.name}`)];

function viewOf(answers) {
  const view = { state: answers.state(), threads: answers.threads(), held: answers.held(), statics: answers.statics(), cells: answers.heap(), lists: answers.lists() };
  view.output = answers.output();
  view.classes = (page.methods ?? []).map(() => answers.line());
  return view;
}

// Answers to moves are passed over: one line for each of their lines.
function passed(answers, lines) {
  for (const _ of lines) answers.line();
}

// Loads the program, and shows it at a row of some moves. Refused, it stays as text, and it is told why.
async function load(moves = [], at = null) {
  const generation = ++page.generation;
  page.methods = null;
  page.moves = [];
  page.pages.clear();
  page.at = 0;
  page.chosen = null;
  forget();
  if (page.explored && page.explored.of !== explorable()) forgetExploration();
  const listing = page.sources.map((_, number) => `listing ${number}`);
  const answers = await asked(["methods", ...listing]);
  if (answers === null || generation !== page.generation) return;
  const refusal = answers.refusal();
  refuse(refusal);
  if (refusal) return;
  page.methods = answers.methods();
  page.listings = listing.map(() => answers.whole());
  showListing();
  if (moves.length) await measure(moves);
  await go(at ?? rowsOf(page.moves));
}

// Takes moves over whose rows aren't known, as they come from a link, a journal or a lesson.
async function measure(moves) {
  const lines = moves.map(linesOf);
  const answers = await asked(lines.flatMap((it) => [...it, "state"]));
  if (answers === null) return;
  let before = 0;
  page.moves = [];
  moves.forEach((move, index) => {
    passed(answers, lines[index]);
    const rows = answers.state().rows;
    const made = rows - before;
    before = rows;
    if (move.kind === "turns" && made < move.actors.length) move = { ...move, actors: move.actors.slice(0, made) };
    if (made > 0) page.moves.push({ ...move, rows: made });
  });
}

// Shows the machine after a row.
async function go(row) {
  const total = rowsOf(page.moves), to = Math.max(0, Math.min(row, total));
  const lines = linesBetween(page.moves, 0, to), generation = page.generation;
  const rows = rowsAsked(to);
  const answers = await asked([...lines, ...looks(), ...rows.lines]);
  if (answers === null || generation !== page.generation) return;
  passed(answers, lines);
  page.at = to;
  page.view = viewOf(answers);
  rows.taken(answers);
  await show();
}

const pageOfRow = (row) => Math.max(0, Math.floor((row - 1) / ROWS_A_PAGE));

// What is asked, after a row, for the rows around it, if they aren't there yet.
function rowsAsked(row) {
  const number = pageOfRow(row), first = number * ROWS_A_PAGE;
  if (page.pages.has(number)) return { lines: [], taken: () => {} };
  const on = linesBetween(page.moves, row, Math.min(rowsOf(page.moves), first + ROWS_A_PAGE));
  const taken = (answers) => {
    passed(answers, on);
    page.pages.set(number, answers.rows(ROWS_A_PAGE));
  };
  return { lines: [...on, `rows ${first} ${ROWS_A_PAGE}`], taken };
}

// Makes a move from the row that is shown; rows after it are dropped.
async function make(move, words) {
  if (page.view === null || page.busy) return;
  const before = linesBetween(page.moves, 0, page.at), own = linesInParts(move), generation = page.generation;
  const answers = await asked([...before, ...own, ...looks()]);
  if (answers === null || generation !== page.generation) return;
  passed(answers, before);
  let told = "", left = 0;
  for (const line of own) {
    told = answers.line();
    const found = /^left (\d+): (.*)$/.exec(told);
    if (found) {
      left = Number(found[1]);
      told = found[2];
    }
  }
  await moved(move, viewOf(answers), told, words);
}

// Long rounds in parts, so that it can be seen how far they are.
function linesInParts(move) {
  if (move.kind !== "rounds" || move.n < 100000) return linesOf(move);
  const part = Math.ceil(move.n / 100), lines = [];
  for (let left = move.n; left > 0; left -= part) lines.push(`rounds ${Math.min(part, left)} ${move.gc}`);
  return lines;
}

async function moved(move, view, told, words) {
  const rows = view.state.rows - page.at;
  if (rows > 0) {
    const total = rowsOf(page.moves);
    if (page.at < total) page.moves = movesUpTo(page.moves, page.at);
    page.moves = withMove(page.moves, madeOf(move, rows));
    page.pages.clear();
    forget();
  }
  page.at = view.state.rows;
  page.view = view;
  await show(`${words}: ${told}.`);
}

// A move as it was made, in so many rows.
function madeOf(move, rows) {
  if (move.kind === "turns") return { ...move, actors: move.actors.slice(0, rows), rows };
  const each = 1 + move.gc;
  return { ...move, n: Math.min(move.n, Math.ceil(rows / each)), rows };
}

const turn = (actor) => make({ kind: "turns", actors: [actor] }, actor === "c" ? "Collector" : `Thread ${actor}`);
const rounds = (n) => make({ kind: "rounds", n, gc: numberIn("gc") }, n === 1 ? "Round" : "Rounds");

// A turn of the thread whose turn is next.
function turnOfNext() {
  const next = page.view?.state.next;
  if (next === null || next === undefined) say("No thread is ready.");
  else turn(String(next));
}

// Runs up to a breakpoint, with as many turns of the collector in each round as are set.
async function runToBreakpoint() {
  const places = [...page.breakpoints.values()].flatMap((lines) => [...lines.values()]);
  if (page.view === null || page.busy) return;
  if (places.length === 0) say("No breakpoint is set: choose the number of a line with an instruction.");
  else if (numberIn("gc") === 1) await runByDebugger(places);
  else await runByRounds(places, numberIn("gc"));
}

// By the debugger's `run`: a turn of the collector follows each of a thread.
async function runByDebugger(places) {
  const before = linesBetween(page.moves, 0, page.at), generation = page.generation;
  const own = [...places.map((place) => `break ${place.method} ${place.pc}`), `run ${MOST_ROUNDS_TO_BREAK}`];
  const answers = await asked([...before, ...own, ...looks()]);
  if (answers === null || generation !== page.generation) return;
  passed(answers, before);
  const told = own.map(() => answers.line()).pop();
  const found = /^ran (\d+): (.*)$/.exec(told);
  const n = Number(found[1]) + (found[2].startsWith("fault") ? 1 : 0);
  await moved({ kind: "rounds", n, gc: 1 }, viewOf(answers), found[2], "Run");
}

// By rounds, one after another: it is looked where the next thread stands, from the second round on. A few rounds are
// asked for at first, and then more and more at once.
async function runByRounds(places, gc) {
  const before = linesBetween(page.moves, 0, page.at), generation = page.generation;
  let made = 0, at = null, told = "";
  for (let count = 100; at === null && told === "" && made < MOST_ROUNDS_ONE_BY_ONE; count = Math.min(10 * count, MOST_ROUNDS_AT_ONCE)) {
    const known = made > 0 ? [`rounds ${made} ${gc}`] : [];
    const answers = await asked([...before, ...known, ...Array(count).fill([`rounds 1 ${gc}`, "state", "threads"]).flat()]);
    if (answers === null || generation !== page.generation) return;
    passed(answers, [...before, ...known]);
    for (let round = 0; round < count && at === null && told === ""; round++) {
      const [, left, answer] = /^left (\d+): (.*)$/.exec(answers.line());
      const { next } = answers.state(), threads = answers.threads();
      made++;
      if (left !== "0" || answer !== "done") told = answer;
      else at = placeOfNext(threads, next, places);
    }
  }
  await make({ kind: "rounds", n: made, gc }, "Run");
  if (at !== null && page.view) say(`Run: at breakpoint ${at.number} thread ${at.thread}. ${statusWords(page.view)}`);
}

// The place with its number at which the next thread stands, if it stands at one.
function placeOfNext(threads, next, places) {
  const frame = threads.find((it) => it.number === next)?.frames[0];
  const number = frame ? places.findIndex((it) => it.method === frame.method && it.pc === frame.pc) : -1;
  return number < 0 ? null : { number, thread: next };
}

// ---- what is shown

function statusWords(view) {
  const { state } = view, total = rowsOf(page.moves);
  const words = [`Row ${page.at} of ${total}`, `${state.births - 1} births`];
  if (state.fault) words.push(`fault ${state.fault.code} in thread ${state.fault.thread}: ${DATA.codes[state.fault.code] ?? ""}`);
  else words.push(state.next === null ? state.status : `${state.status}, thread ${state.next} is next`);
  return `${words.join("; ")}.`;
}

async function show(told = "") {
  const { view } = page;
  say(`${told}${told ? " " : ""}${statusWords(view)}`);
  $("status").dataset.state = JSON.stringify(view.state);
  showThreads(view, (number) => turn(String(number)));
  showStatics(view);
  showHeap(view, choose);
  showLists(view, choose);
  $("output").textContent = view.output;
  showMarks();
  follow();
  look();
  $("row").value = page.at;
  $("rows-count").textContent = `of ${rowsOf(page.moves)}`;
  if (page.drawn) moveNow();
  enable();
  await showJournal();
}

function choose(cell) {
  page.chosen = page.chosen === cell.number ? null : cell.number;
  look();
}

// The cell that is looked at, and arrows.
function look() {
  const cell = page.view.cells.find((it) => it.number === page.chosen) ?? null;
  showCell(page.view, cell);
  $("heap").querySelector("svg")?.remove();
  if ($("arrows").checked) showArrows(page.view, null);
  else if (cell) showArrows(page.view, cell.number);
}

// ---- the text

function placesShown() {
  const source = page.sources[page.shown], klass = page.methods?.[page.shown];
  return source?.text !== undefined && klass ? placesOf(source.text, klass) : new Map();
}

function marksShown(places) {
  const marks = new Map(), klass = page.methods?.[page.shown];
  if (!klass || !page.view) return marks;
  for (const thread of page.view.threads) {
    const frame = thread.frames[0];
    if (!frame || !frame.method.startsWith(`${klass.name}.`)) continue;
    const line = places.get(frame.method.slice(klass.name.length + 1))?.get(frame.pc);
    if (line) marks.set(line, [...(marks.get(line) ?? []), thread.number]);
  }
  return marks;
}

function showMarks() {
  const source = page.sources[page.shown];
  if (!source) return;
  const places = placesShown();
  const refused = page.refusal && page.refusal.source === page.shown ? Number(/at line (\d+)/.exec(page.refusal.what)?.[1]) : null;
  const stops = page.breakpoints.get(page.shown) ?? new Map();
  showGutter(source.text ?? "(a class file: see its listing)", marksShown(places), stops, places, refused, toggle);
}

// Scrolls the text to where the next thread stands, unless someone writes there.
function follow() {
  const text = $("text"), mark = $("gutter").querySelector(`.who[data-thread="${page.view.state.next}"]`);
  if (!mark || document.activeElement === text) return;
  const top = mark.parentElement.offsetTop - $("gutter").offsetTop, high = mark.parentElement.offsetHeight;
  if (top < text.scrollTop || top + 2 * high > text.scrollTop + text.clientHeight) text.scrollTop = Math.max(0, top - text.clientHeight / 2);
  $("gutter").scrollTop = text.scrollTop;
}

function toggle(line, place) {
  const stops = page.breakpoints.get(page.shown) ?? new Map();
  const klass = page.methods[page.shown];
  if (stops.has(line)) stops.delete(line);
  else stops.set(line, { method: `${klass.name}.${place.method}`, pc: place.pc });
  page.breakpoints.set(page.shown, stops);
  showMarks();
  $("gutter").querySelector(`[data-line="${line}"] button`)?.focus();
}

function showText() {
  const source = page.sources[page.shown];
  $("text").value = source.text ?? "(a class file: see its listing)";
  $("text").readOnly = source.text === undefined;
  $("tabs").replaceChildren(...page.sources.map((it, number) => {
    const chosen = number === page.shown;
    return element("button", { role: "tab", "aria-selected": String(chosen), onclick: () => chooseSource(number) }, it.name);
  }));
  showMarks();
  showListing();
}

function showListing() {
  $("listing").textContent = page.listings?.[page.shown] ?? "";
}

function chooseSource(number) {
  page.shown = number;
  showText();
}

// Why there is no machine: at its line, with what the code means.
function refuse(refusal) {
  page.refusal = refusal;
  if (!refusal) {
    $("refusal").textContent = "";
    showMarks();
    return;
  }
  page.view = null;
  page.listings = null;
  const code = /[A-Z]\d+/.exec(refusal.what)?.[0];
  const name = refusal.source === null ? "" : `${page.sources[refusal.source].name}: `;
  const place = refusal.where === "source" ? "" : `${refusal.where}: `;
  $("refusal").textContent = `Refused. ${name}${place}${refusal.what}\n${DATA.codes[code] ?? ""}`;
  for (const id of ["threads", "statics", "heap", "object", "journal"]) $(id).replaceChildren();
  $("phase").textContent = $("output").textContent = $("rows-count").textContent = "";
  say("There is no machine: the program was refused.");
  if (refusal.source !== null && refusal.source !== page.shown) chooseSource(refusal.source);
  else showMarks();
  showListing();
  enable();
}

// Takes sources in place of those that are there.
async function take(sources, { shape = null, limits = null, moves = [], at = null } = {}) {
  page.sources = sources;
  page.shown = 0;
  page.breakpoints.clear();
  page.view = null;
  document.querySelector(".look")?.classList.remove("look");
  if (shape) for (const size of ["small", "medium", "large"]) $(size).value = shape[size];
  if (limits) {
    $("steps").value = limits.steps;
    $("output-limit").value = limits.output;
  }
  showText();
  await load(moves, at);
  showText();
}

const takeExample = (name) => take(DATA.examples[name].map((it) => ({ ...it })), { shape: SHAPE, limits: LIMITS });

// ---- the journal

async function pageOfRows(number) {
  if (!page.pages.has(number)) {
    const first = number * ROWS_A_PAGE, generation = page.generation;
    const lines = linesBetween(page.moves, 0, Math.min(rowsOf(page.moves), first + ROWS_A_PAGE));
    const answers = await asked([...lines, `rows ${first} ${ROWS_A_PAGE}`]);
    if (answers === null || generation !== page.generation) return [];
    passed(answers, lines);
    page.pages.set(number, answers.rows(ROWS_A_PAGE));
  }
  return page.pages.get(number);
}

async function showJournal() {
  const number = pageOfRow(page.at);
  const rows = await pageOfRows(number);
  showRows(number * ROWS_A_PAGE, rows, page.at, (row) => go(row));
}

// ---- every schedule

// What an exploration depends on: the sources and the limits, and not the heap.
const explorable = () => JSON.stringify([page.sources.map((it) => it.text ?? toBase64(it.bytes)), numberIn("steps"), numberIn("output-limit")]);

function forgetExploration() {
  page.explored = null;
  showNoExploration();
}

async function explore() {
  if (page.view === null || page.busy) return;
  forgetExploration();
  $("explored").textContent = "Exploring ..";
  const of = explorable(), generation = page.generation, noRoom = $("no-room").checked ? "no-room " : "";
  const answers = await asked([`explore ${noRoom}${Math.max(1, numberIn("states"))}`]);
  if (answers === null || generation !== page.generation) return showNoExploration();
  if (!/^(outcome|explored) /.test(answers.peek())) {
    $("explored").textContent = "The machine has no memory for what it found.";
    return;
  }
  page.explored = { ...answers.exploration(), of };
  showExploration(page.explored, openWitness);
}

// The heap on which the turns of a witness find cells as it says: with the cells that are taken up to the first turn for
// which one has to be missing; with as many as are set where none is, if they are enough.
async function heapFor(turns) {
  const missing = turns.findIndex((it) => !it.room), before = missing < 0 ? turns : turns.slice(0, missing);
  const lines = before.map((it) => turnLine(it.thread));
  const answers = await asked([...lines, "heap"], ROOMY);
  if (answers === null) return null;
  passed(answers, lines);
  const shape = { small: 0, medium: 0, large: 0 }, names = { 4: "small", 32: "medium", 256: "large" };
  for (const cell of answers.heap()) if (cell.colour !== "free") shape[names[cell.words]]++;
  if (missing < 0) for (const [size, count] of Object.entries(setting().shape)) shape[size] = Math.max(shape[size], count);
  return shape;
}

// Whether the turns of a witness find cells as it says, on a heap of this shape.
async function isMade(turns, shape) {
  const lines = turns.map((it) => turnLine(it.thread));
  const answers = await asked([...lines, `rows 0 ${turns.length}`], shape);
  if (answers === null) return null;
  passed(answers, lines);
  const rows = answers.rows(turns.length);
  return rows.length === turns.length && rows.every((row, at) => (row.split(" ")[1] !== "n") === turns[at].room);
}

// Opens the turns that lead to an outcome, as a run at whose end one stands.
async function openWitness(outcome, number) {
  if (page.busy) return;
  const { turns } = outcome, generation = page.generation;
  const shape = await heapFor(turns);
  const made = shape && (await isMade(turns, shape));
  if (made === null || generation !== page.generation) return;
  if (!made) {
    const at = turns.findIndex((it) => !it.room) + 1;
    say(`Outcome ${number} isn't opened: no heap was found on which a cell is missing at turn ${at}, and at no other turn but those of the witness.`);
    return;
  }
  for (const [size, count] of Object.entries(shape)) $(size).value = count;
  await load([moveOf(turns)], turns.length);
  if (page.view) say(`A run to outcome ${number}, ${outcome.words}. ${statusWords(page.view)}`);
}

// ---- the timeline

function forget() {
  page.drawn = null;
  $("timeline").replaceChildren();
  $("save-timeline").disabled = true;
}

async function drawTimeline() {
  const total = rowsOf(page.moves), cells = Math.max(1, page.view.cells.length);
  const count = Math.min(total, Math.max(2, Math.min(SAMPLES, Math.floor(SAMPLED_CELLS / cells))));
  const stops = Array.from({ length: count + 1 }, (_, nth) => (count === 0 ? 0 : Math.round((nth * total) / count)));
  const parts = stops.map((row, nth) => linesBetween(page.moves, nth === 0 ? 0 : stops[nth - 1], row));
  const generation = page.generation;
  const answers = await asked(parts.flatMap((lines) => [...lines, "state", "heap"]));
  if (answers === null || generation !== page.generation) return;
  let before = null;
  const samples = stops.map((row, nth) => {
    passed(answers, parts[nth]);
    const state = answers.state(), found = answers.heap();
    const births = new Set(found.map((cell) => cell.birth).filter((birth) => birth !== undefined));
    const freed = before ? [...before].some((birth) => !births.has(birth)) : false;
    before = births;
    return { row, phase: state.phase, births: state.births, freed, counts: coloursOf(found), cells: found };
  });
  page.drawn = timelineDrawn(samples, total, page.at);
  $("timeline").replaceChildren(page.drawn.svg);
  page.drawn.svg.addEventListener("click", (event) => {
    const box = page.drawn.svg.getBoundingClientRect();
    go(page.drawn.rowAt((event.clientX - box.left) / box.width));
  });
  $("save-timeline").disabled = false;
}

function moveNow() {
  for (const end of ["x1", "x2"]) page.drawn.svg.querySelector("#now").setAttribute(end, page.drawn.x(page.at));
}

// ---- files and links

function save(name, parts, type) {
  const address = URL.createObjectURL(new Blob(parts, { type }));
  element("a", { href: address, download: name }).click();
  setTimeout(() => URL.revokeObjectURL(address), 1000);
}

async function saveJournal() {
  const lines = linesBetween(page.moves, 0, rowsOf(page.moves));
  const answers = await asked([...lines, "journal"]);
  if (answers === null) return;
  passed(answers, lines);
  save("run.journal", [answers.whole()], "text/plain");
}

// A journal's head and rows, or null.
function journalRead(text) {
  const lines = text.split("\n");
  if (!/^JVMJ [12]$/.test(lines[0])) return null;
  const heap = /^heap (\d+) (\d+) (\d+)$/.exec(lines[1] ?? ""), limits = /^limits (\d+) (\d+)$/.exec(lines[2] ?? "");
  if (!heap || !limits) return null;
  const rows = lines.filter((line) => /^(\d+|c) [donf]( \d+)?$/.test(line));
  return {
    shape: { small: heap[1], medium: heap[2], large: heap[3] }, steps: limits[1], output: limits[2],
    actors: rows.map((row) => row.split(" ")[0]), outcomes: rows.map((row) => row.split(" ")[1]),
  };
}

async function takeJournal(journal) {
  for (const size of ["small", "medium", "large"]) $(size).value = journal.shape[size];
  $("steps").value = journal.steps;
  $("output-limit").value = journal.output;
  await load([{ kind: "turns", actors: journal.actors }], null);
  if (page.view && rowsOf(page.moves) !== journal.actors.length)
    say(`The journal isn't one of this program: row ${rowsOf(page.moves) + 1} isn't that of its turn. ${DATA.codes.N5 ?? ""}`);
}

async function takeFiles(files) {
  const sources = [];
  let journal = null;
  for (const file of files) {
    const bytes = new Uint8Array(await file.arrayBuffer());
    const isClass = bytes.length >= 4 && bytes[0] === 0xca && bytes[1] === 0xfe && bytes[2] === 0xba && bytes[3] === 0xbe;
    const text = isClass ? "" : new TextDecoder().decode(bytes);
    const read = journalRead(text);
    if (read) journal = read;
    else sources.push(isClass ? { name: file.name, bytes } : { name: file.name, text });
  }
  if (sources.length) {
    // the one with main first
    const main = sources.findIndex((it) => it.text !== undefined && /^[ \t]*\.method\b.*\bmain\(\)V/m.test(it.text));
    if (main > 0) sources.unshift(...sources.splice(main, 1));
    $("examples").value = "";
    await take(sources);
  }
  if (journal) await takeJournal(journal);
}

const toBase64 = (bytes) => btoa(String.fromCharCode(...bytes)).replace(/\+/g, "-").replace(/\//g, "_").replace(/=+$/, "");
const fromBase64 = (text) => Uint8Array.from(atob(text.replace(/-/g, "+").replace(/_/g, "/")), (letter) => letter.charCodeAt(0));
const through = async (bytes, stream) => new Uint8Array(await new Response(new Blob([bytes]).stream().pipeThrough(stream)).arrayBuffer());

// The program, the machine and what was done, as the end of an address.
async function fragment() {
  const { shape, steps, output } = setting();
  const sources = page.sources.map((it) => (it.bytes ? { name: it.name, class: toBase64(it.bytes) } : it));
  const moves = page.moves.map((move) => (move.kind === "turns" ? move.actors.join(" ") : [move.n, move.gc]));
  const told = JSON.stringify({ sources, shape, steps, output, moves, at: page.at });
  return `#run=${toBase64(await through(encoder.encode(told), new CompressionStream("deflate-raw")))}`;
}

async function takeFragment(text) {
  const told = JSON.parse(new TextDecoder().decode(await through(fromBase64(text), new DecompressionStream("deflate-raw"))));
  const sources = told.sources.map((it) => (it.class ? { name: String(it.name), bytes: fromBase64(it.class) } : { name: String(it.name), text: String(it.text) }));
  const moves = told.moves.map((move) => (typeof move === "string" ? { kind: "turns", actors: move.split(" ").filter((it) => /^(c|\d{1,3})$/.test(it)) } : { kind: "rounds", n: Number(move[0]), gc: Number(move[1]) }));
  if (sources.length === 0) throw new Error("no source");
  $("examples").value = "";
  const { small, medium, large } = told.shape;
  const shape = { small: Number(small), medium: Number(medium), large: Number(large) };
  await take(sources, { shape, limits: { steps: Number(told.steps), output: Number(told.output) }, moves, at: Number(told.at) });
}

async function copyLink() {
  history.replaceState(null, "", await fragment());
  try {
    await navigator.clipboard.writeText(location.href);
    say("The link is copied, and stands in the address.");
  } catch {
    say("The link stands in the address.");
  }
}

// ---- lessons, keys

async function openLesson(lesson) {
  $("lesson-title").textContent = lesson.title;
  $("lesson-text").replaceChildren(...lesson.text.map((text) => element("p", {}, text)));
  for (const it of $("lesson-titles").children) it.setAttribute("aria-pressed", String(it.textContent === lesson.title));
  const sources = lesson.sources.map((it) => (it.example ? DATA.examples[it.example][0] : { name: it.name, text: it.text }));
  $("examples").value = "";
  await take(sources.map((it) => ({ ...it })), { shape: lesson.shape, limits: LIMITS, moves: lesson.moves });
  $(lesson.look).classList.add("look");
}

const KEYS = [
  ["s", "S", "a turn of the next thread", () => turnOfNext()],
  ["c", "C", "a turn of the collector", () => turn("c")],
  ["r", "R", "a round", () => rounds(1)],
  ["n", "N", "so many rounds", () => rounds(numberIn("many"))],
  ["g", "G", "run", () => rounds(ALL_ROUNDS)],
  ["b", "B", "run to a breakpoint", () => runToBreakpoint()],
  ["ArrowLeft", "left arrow", "back by one row", () => go(page.at - 1)],
  ["ArrowRight", "right arrow", "on by one row", () => go(page.at + 1)],
  ["Home", "Home", "to row 0", () => go(0)],
  ["End", "End", "to the last row", () => go(rowsOf(page.moves))],
  ["a", "A", "arrows on or off", () => { $("arrows").click(); }],
  ["t", "T", "draw the timeline", () => drawTimeline()],
  ["e", "E", "explore every schedule", () => explore()],
  ["Escape", "Escape", "stop", () => page.machine.stop()],
];

function onKey(event) {
  if (event.ctrlKey || event.metaKey || event.altKey) return;
  if (event.target.closest("textarea, input, select") && event.key !== "Escape") return;
  if (/^\d$/.test(event.key) && page.view && !page.busy) {
    turn(event.key);
    return;
  }
  const key = KEYS.find(([name]) => name === event.key || name === event.key.toLowerCase());
  if (!key || (key[0] === "Escape") !== page.busy || (page.view === null && key[0] !== "Escape")) return;
  event.preventDefault();
  key[3]();
}

// ---- the beginning

function fold(button, box) {
  $(button).addEventListener("click", () => {
    $(box).hidden = !$(box).hidden;
    $(button).setAttribute("aria-expanded", String(!$(box).hidden));
  });
}

function wire() {
  const actions = {
    start: () => go(0), back: () => go(page.at - 1), forth: () => go(page.at + 1), end: () => go(rowsOf(page.moves)),
    thread: turnOfNext, collect: () => turn("c"), round: () => rounds(1), run: () => rounds(ALL_ROUNDS),
    "to-break": runToBreakpoint, rounds: () => rounds(numberIn("many")), stop: () => page.machine.stop(),
    go: () => page.view && go(numberIn("row")), draw: drawTimeline, explore, open: () => $("files").click(), link: copyLink,
    "save-text": () => save(page.sources[page.shown].name, [page.sources[page.shown].bytes ?? page.sources[page.shown].text], "text/plain"),
    "save-journal": saveJournal,
    "save-timeline": () => save("timeline.svg", [page.drawn.svg.outerHTML], "image/svg+xml"),
  };
  for (const [id, action] of Object.entries(actions)) $(id).addEventListener("click", () => action());
  $("examples").append(element("option", { value: "" }, "(own)"), ...Object.keys(DATA.examples).map((name) => element("option", { value: name }, name)));
  $("examples").addEventListener("change", () => $("examples").value && takeExample($("examples").value));
  $("arrows").addEventListener("change", () => page.view && look());
  $("files").addEventListener("change", () => takeFiles($("files").files));
  let late = 0;
  const again = () => {
    clearTimeout(late);
    late = setTimeout(() => load(), 400);
  };
  $("text").addEventListener("input", () => {
    page.sources[page.shown] = { name: page.sources[page.shown].name, text: $("text").value };
    page.breakpoints.delete(page.shown);
    page.methods = null;
    showMarks();
    again();
  });
  $("text").addEventListener("scroll", () => { $("gutter").scrollTop = $("text").scrollTop; });
  for (const id of ["small", "medium", "large", "steps", "output-limit"]) $(id).addEventListener("change", again);
  $("journal").addEventListener("keydown", (event) => {
    const by = { ArrowUp: -1, ArrowDown: 1 }[event.key];
    if (!by || !page.view || page.busy) return;
    event.preventDefault();
    go(page.at + by);
  });
  document.addEventListener("keydown", onKey);
  document.addEventListener("dragover", (event) => { event.preventDefault(); document.body.classList.add("dropping"); });
  document.addEventListener("dragleave", () => document.body.classList.remove("dropping"));
  document.addEventListener("drop", (event) => {
    event.preventDefault();
    document.body.classList.remove("dropping");
    takeFiles(event.dataTransfer.files);
  });
  window.addEventListener("resize", () => page.view && look());
  window.addEventListener("hashchange", () => begin());
  fold("show-lessons", "lessons");
  fold("show-help", "help");
  $("lesson-titles").append(...LESSONS.map((lesson) => element("button", { "aria-pressed": "false", onclick: () => openLesson(lesson) }, lesson.title)));
  for (const [, name, what] of KEYS) $("keys").append(element("dt", {}, name), element("dd", {}, what));
  $("keys").append(element("dt", {}, "0 to 9"), element("dd", {}, "a turn of that thread"));
}

// What the address says, or the first example.
async function begin() {
  const told = /^#run=(.*)$/.exec(location.hash);
  try {
    if (told) return await takeFragment(told[1]);
  } catch {
    say("The link couldn't be read.");
  }
  $("examples").value = "countdown";
  return takeExample("countdown");
}

async function main() {
  wire();
  $("foot").textContent = DATA.foot;
  try {
    page.machine = new Machine(await unpacked($("wasm").textContent.trim()), $("worker").textContent);
  } catch (error) {
    say(`This browser can't run the machine: ${error.message}. It needs WebAssembly with 64-bit memory, as Chromium 133 and later have.`);
    document.title += " (failed)";
    return;
  }
  await begin();
  document.body.dataset.ready = "yes";
}

main();
