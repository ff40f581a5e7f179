"use strict";
// What the page asks of the machine, and how it reads the answers. docs/PAGE.md has the requests.

// ---- the machine, in a worker that can be stopped

class Machine {
  constructor(module, code) {
    this.module = module;
    this.address = URL.createObjectURL(new Blob([code], { type: "text/javascript" }));
    this.waiting = new Map();
    this.next = 0;
    this.begin();
  }

  begin() {
    this.worker = new Worker(this.address);
    this.worker.postMessage({ machine: this.module });
    this.worker.onmessage = ({ data }) => this.receive(data);
  }

  receive(data) {
    const asked = this.waiting.get(data.id);
    if (!asked) return;
    if ("lines" in data) {
      asked.progress(data.lines);
      return;
    }
    this.waiting.delete(data.id);
    if (data.error) asked.fail(new Error(data.error));
    else asked.answer(data);
  }

  // What the machine answers to these bytes: {status, output, took, memory}.
  ask(input, progress = () => {}) {
    const id = this.next++;
    return new Promise((answer, fail) => {
      this.waiting.set(id, { answer, fail, progress });
      this.worker.postMessage({ id, input }, [input.buffer]);
    });
  }

  // Ends whatever runs.
  stop() {
    this.worker.terminate();
    const waiting = [...this.waiting.values()];
    this.waiting.clear();
    this.begin();
    for (const asked of waiting) asked.fail(new Error("stopped"));
  }
}

async function unpacked(base64) {
  const packed = Uint8Array.from(atob(base64), (letter) => letter.charCodeAt(0));
  const stream = new Blob([packed]).stream().pipeThrough(new DecompressionStream("gzip"));
  return WebAssembly.compile(await new Response(stream).arrayBuffer());
}

// ---- input

const encoder = new TextEncoder();

function joined(parts) {
  const bytes = parts.map((part) => (typeof part === "string" ? encoder.encode(part) : part));
  const whole = new Uint8Array(bytes.reduce((sum, part) => sum + part.length, 0));
  let at = 0;
  for (const part of bytes) {
    whole.set(part, at);
    at += part.length;
  }
  return whole;
}

// What is read first: the heap, the limits and the sources. A source is {name, text} or {name, bytes}.
function headOf(setting) {
  const { small, medium, large } = setting.shape;
  const parts = [`heap ${small} ${medium} ${large}\nlimits ${setting.steps} ${setting.output}\nsources ${setting.sources.length}\n`];
  for (const source of setting.sources) {
    const bytes = source.bytes ?? encoder.encode(source.text);
    parts.push(`source ${bytes.length}\n`, bytes);
  }
  return parts;
}

const inputOf = (setting, lines) => joined([...headOf(setting), lines.map((line) => line + "\n").join("")]);

// ---- moves: what was done from the start on
//
// A move is {kind: "rounds", n, gc, rows} or {kind: "turns", actors, rows}: so many rounds with so many turns of the collector
// in each, or a turn of each actor, "c" or a thread's number. `rows` is how many rows of the journal it made.

const turnLine = (actor) => (actor === "c" ? "gc" : `step ${actor}`);

// The lines that make the rows of a move from one place in it up to another.
function linesWithin(move, from, to) {
  if (move.kind === "turns") return move.actors.slice(from, to).map(turnLine);
  const each = 1 + move.gc, lines = [];
  let at = from;
  if (at % each !== 0) {
    const end = Math.min(to, at - (at % each) + each);
    for (; at < end; at++) lines.push("gc");
  }
  const whole = Math.floor((to - at) / each);
  if (whole > 0) {
    lines.push(`rounds ${whole} ${move.gc}`);
    at += whole * each;
  }
  if (at < to) {
    lines.push("rounds 1 0");
    for (at++; at < to; at++) lines.push("gc");
  }
  return lines;
}

// The lines that lead from one row to another.
function linesBetween(moves, from, to) {
  const lines = [];
  let start = 0;
  for (const move of moves) {
    const end = start + move.rows;
    if (from < end && start < to) lines.push(...linesWithin(move, Math.max(from - start, 0), Math.min(to, end) - start));
    start = end;
  }
  return lines;
}

// The turns of threads, as a move, before it is known how many rows they make.
const moveOf = (turns) => ({ kind: "turns", actors: turns.map((it) => it.thread) });

const rowsOf = (moves) => moves.reduce((sum, move) => sum + move.rows, 0);

// The moves up to a row.
function movesUpTo(moves, row) {
  const kept = [];
  let start = 0;
  for (const move of moves) {
    if (start >= row) break;
    const rows = Math.min(move.rows, row - start);
    if (rows === move.rows) kept.push(move);
    else if (move.kind === "turns") kept.push({ ...move, actors: move.actors.slice(0, rows), rows });
    else kept.push(...partOfRounds(move, rows));
    start += move.rows;
  }
  return kept;
}

function partOfRounds(move, rows) {
  const each = 1 + move.gc, whole = Math.floor(rows / each), rest = rows % each, parts = [];
  if (whole > 0) parts.push({ kind: "rounds", n: whole, gc: move.gc, rows: whole * each });
  if (rest > 0) parts.push({ kind: "rounds", n: 1, gc: 0, rows: 1 });
  if (rest > 1) parts.push({ kind: "turns", actors: Array(rest - 1).fill("c"), rows: rest - 1 });
  return parts;
}

// Moves with one more; like rounds that were all made become one move.
function withMove(moves, move) {
  const last = moves[moves.length - 1];
  if (last && last.kind === "turns" && move.kind === "turns")
    return [...moves.slice(0, -1), { kind: "turns", actors: [...last.actors, ...move.actors], rows: last.rows + move.rows }];
  if (last && last.kind === "rounds" && move.kind === "rounds" && last.gc === move.gc && last.rows === last.n * (1 + last.gc))
    return [...moves.slice(0, -1), { kind: "rounds", n: last.n + move.n, gc: move.gc, rows: last.rows + move.rows }];
  return [...moves, move];
}

// The line or lines of a move that is to be made as a whole.
const linesOf = (move) => (move.kind === "rounds" ? [`rounds ${move.n} ${move.gc}`] : move.actors.map(turnLine));

// ---- answers, read one after another

const FRAME = /^(frame|locals|stack|monitor|waiting$|failing$)/;

class Answers {
  constructor(bytes) {
    // each byte a character, so that lengths in bytes are lengths of text
    this.text = "";
    for (let at = 0; at < bytes.length; at += 32768) this.text += String.fromCharCode(...bytes.subarray(at, at + 32768));
    this.at = 0;
  }

  peek() {
    const end = this.text.indexOf("\n", this.at);
    return end < 0 ? this.text.slice(this.at) : this.text.slice(this.at, end);
  }

  line() {
    const line = this.peek();
    this.at += line.length + 1;
    return line;
  }

  // The lines as long as they fit.
  linesWhile(fits) {
    const lines = [];
    while (this.at < this.text.length && fits(this.peek())) lines.push(this.line());
    return lines;
  }

  whole() {
    const words = this.line().split(" ");
    if (words[0] === "error") return null;
    const length = Number(words[1]), text = this.text.slice(this.at, this.at + length);
    this.at += length;
    return text;
  }

  // Why there is no world, or null.
  refusal() {
    if (!this.text.startsWith("refused ")) return null;
    const found = /^refused (source (\d+)|load|world|input|memory) ?(.*)$/.exec(this.line());
    return { where: found[1].split(" ")[0], source: found[2] === undefined ? null : Number(found[2]), what: found[3] };
  }

  state() {
    const found = /^state (\w+) rows (\d+) births (\d+) next (\S+) phase (\w+) ?(.*)$/.exec(this.line());
    const state = { status: found[1], rows: Number(found[2]), births: Number(found[3]), next: found[4] === "-" ? null : Number(found[4]) };
    state.phase = found[5];
    state.position = found[6] === "" ? [] : found[6].split(" ").map(Number);
    const fault = /^fault (F\d+) thread (\d+)$/.exec(this.peek());
    if (fault) {
      this.line();
      state.fault = { code: fault[1], thread: Number(fault[2]) };
    }
    return state;
  }

  threads() {
    const threads = [];
    for (;;) {
      const found = /^thread (\d+) (\w+)(?: by (.*))?$/.exec(this.peek());
      if (!found) return threads;
      this.line();
      const thread = { number: Number(found[1]), state: found[2], by: found[3] ?? null, frames: [] };
      if (thread.state === "lives") thread.frames = framesOf(this.linesWhile((line) => FRAME.test(line)));
      else this.line();
      threads.push(thread);
    }
  }

  held() {
    const cells = new Map();
    for (const line of this.linesWhile((it) => it.startsWith("held "))) {
      const found = /^held (\d+) #(\d+) (\S+) owner (\S+) (\d+) thread (\S+) words(.*)$/.exec(line);
      cells.set(Number(found[1]), {
        birth: Number(found[2]), kind: found[3], owner: found[4], entries: Number(found[5]), thread: found[6],
        words: found[7].trim() === "" ? [] : found[7].trim().split(" "),
      });
    }
    return cells;
  }

  statics() {
    return this.linesWhile((line) => line.includes(" = "));
  }

  heap() {
    const cells = this.linesWhile((line) => line.startsWith("cell ")).map((line) => {
      const [, number, words, birth, colour] = line.split(" ");
      const cell = { number: Number(number), words: Number(words), line };
      return birth === "free" ? { ...cell, colour: "free" } : { ...cell, birth: Number(birth.slice(1)), colour };
    });
    this.line();
    return cells;
  }

  // The grey list's births and the free lists' cells, each in its order: {grey, 4, 32, 256}.
  lists() {
    const lists = {};
    for (const line of this.linesWhile((it) => /^(grey|free )/.test(it))) {
      const words = line.split(" "), key = words.shift() === "grey" ? "grey" : words.shift();
      lists[key] = words.map((it) => Number(it.replace("#", "")));
    }
    return lists;
  }

  methods() {
    const classes = [];
    for (;;) {
      const line = this.peek();
      if (line.startsWith("class ")) classes.push({ name: line.slice(6), methods: [] });
      else if (line.startsWith("method ")) {
        const [, name, ...pcs] = line.split(" ");
        classes[classes.length - 1].methods.push({ name, pcs: pcs.map(Number) });
      } else return classes;
      this.line();
    }
  }

  rows(count) {
    const rows = [];
    while (rows.length < count && /^(\d+|c) [donf] \d+$/.test(this.peek())) rows.push(this.line());
    return rows;
  }

  // What was printed: `output`, or what is said in the end.
  output() {
    return this.whole();
  }

  // What an exploration found: its report, its outcomes in order, each with the turns that lead to it, and its last line.
  exploration() {
    const start = this.at, outcomes = [];
    for (let found; (found = /^outcome \d+: (.*)$/.exec(this.peek())); ) {
      this.line();
      const outcome = { words: found[1], ended: this.linesWhile((line) => /^thread \d+ ended by /.test(line)) };
      this.line(); // how many turns
      const length = Number(this.line().split(" ")[1]);
      outcome.output = this.text.slice(this.at, this.at + length);
      this.at += length;
      if (length > 0 && !outcome.output.endsWith("\n")) this.at++;
      outcomes.push(outcome);
    }
    const last = this.line(), report = this.text.slice(start, this.at);
    for (const outcome of outcomes) outcome.turns = turnsOf(this.whole());
    return { report, outcomes, last };
  }
}

// The turns of a witness: each with its thread, and whether it finds a cell where it asks for one.
const turnsOf = (text) => text.split("\n").slice(0, -1).map((line) => ({ thread: line.split(" ")[0], room: !line.endsWith(" no room") }));

function framesOf(lines) {
  const frames = [];
  for (const line of lines) {
    if (line.startsWith("frame ")) {
      const [, depth, method, , pc] = line.split(" ");
      frames.push({ depth: Number(depth), method, pc: Number(pc), lines: [line] });
    } else frames[frames.length - 1].lines.push(line);
  }
  return frames;
}
