/**
 * Vemiktag for JavaScript, over vemiktag.wasm, which tools/web.sh makes. No packages are needed.
 *
 * Strings are JavaScript's here and Unicode scalar values inside, which positions count: `toElements` and `toUnits` lead from a place in the one
 * to that in the other. Types are in vemiktag.d.ts.
 *
 * There is no sequencer in here: the library has no door to one yet.
 */

const DONE = 0;
const SOME_REFUSED = 1;
const UNTOLD = 2;
const TOO_SMALL = 4;
const OUT_OF_MEMORY = 5;
const TOO_LONG = 6;
const CLOSED = 7;
const NOTHING = 8;

/** So many bytes go in or come out at a time through room that the engine has from the beginning. */
const PIECE = 65536;

// ---- what is thrown

/** What each call throws where it didn't do what it was asked. */
export class VemiktagError extends Error {
  name = "VemiktagError";
}

/** It was refused, and nothing changed: `refusal` is the number of docs/FORMATS.md, `why` its text. */
export class Refused extends VemiktagError {
  name = "Refused";

  constructor(line) {
    super(line);
    const [, number, why] = /^refused (\d+) (.*)$/.exec(line) ?? [null, "0", line];
    this.refusal = Number(number);
    this.why = why;
  }
}

/** There was no memory. A client or a session that was to change takes nothing more; where it only was to tell something, nothing changed. */
export class OutOfMemory extends VemiktagError {
  name = "OutOfMemory";
}

/** The input is longer than it may be, or the client or the session is full; nothing changed. */
export class TooLong extends VemiktagError {
  name = "TooLong";
}

/** The client or the session takes nothing more, or was freed. */
export class Closed extends VemiktagError {
  name = "Closed";
}

/** The engine stopped in the middle of a call, so nothing is known of what it holds: load another one. */
export class Broken extends VemiktagError {
  name = "Broken";
}

/** A string has half a surrogate pair without the other half: it is no text. Nothing changed. */
export class LoneSurrogate extends VemiktagError {
  name = "LoneSurrogate";
}

/** A place in UTF-16 units is between the halves of a surrogate pair. */
export class InsideCharacter extends VemiktagError {
  name = "InsideCharacter";
}

/** A place is behind the end. */
export class BehindEnd extends VemiktagError {
  name = "BehindEnd";
}

/** A number that JSON can't have, or one of more than 53 bits where JSON.parse doesn't tell digits or JSON.rawJSON isn't there. */
export class NumberLost extends VemiktagError {
  name = "NumberLost";
}

const REASONS = new Map([
  [OUT_OF_MEMORY, () => new OutOfMemory("there was no memory")],
  [TOO_LONG, () => new TooLong("it is longer than it may be, or what takes it is full")],
  [CLOSED, () => new Closed("it takes nothing more")],
  [UNTOLD, () => new Refused("refused, and there was no memory to tell why")],
]);

/** The status, where it is none of those that are thrown. */
function expectTaken(status) {
  const reason = REASONS.get(status);
  if (reason) {
    throw reason();
  }
  return status;
}

// ---- texts

const encoder = new TextEncoder();
const decoder = new TextDecoder("utf-8", { fatal: true, ignoreBOM: true });

/** Refuses what is no text: the encoder would put U+FFFD in place of half a pair. */
function expectText(string) {
  if (!string.isWellFormed()) {
    throw new LoneSurrogate("half a surrogate pair stands alone in a string");
  }
}

/** The bytes of a text. */
function encoded(text) {
  expectText(text);
  return encoder.encode(text);
}

/** The JSON text of a value; a BigInt is a number. */
export function write(value) {
  return JSON.stringify(value, (key, it) => {
    expectText(key);
    if (typeof it === "string") {
      expectText(it);
    } else if (typeof it === "bigint") {
      return rawNumber(it);
    } else if (typeof it === "number" && !Number.isFinite(it)) {
      throw new NumberLost(`${it} is no number of JSON`);
    }
    return it;
  });
}

function rawNumber(whole) {
  if (!JSON.rawJSON) {
    throw new NumberLost(`${whole} can't be written without JSON.rawJSON`);
  }
  return JSON.rawJSON(String(whole));
}

/** The value of a JSON text. A whole number that a Number doesn't hold is a BigInt. */
export function read(text) {
  return /\d{16}/.test(text) ? JSON.parse(text, exactly) : JSON.parse(text);
}

function exactly(_, value, context) {
  if (!Number.isInteger(value) || Number.isSafeInteger(value)) {
    return value;
  }
  if (!context) {
    throw new NumberLost(`the digits of ${value} aren't told by this JSON.parse`);
  }
  return /^-?\d+$/.test(context.source) ? BigInt(context.source) : value;
}

// ---- places

/** How many UTF-16 units an element has: those of its character; a marker counts as one, as U+FFFC in its place would. */
function unitsOf(part) {
  return typeof part === "string" ? part.length : 1;
}

/** How many elements stand in front of a place in UTF-16 units, in a string or in the parts of a document. */
export function toElements(parts, units) {
  let elements = 0;
  let passed = 0;
  for (const part of parts) {
    if (passed >= units) {
      break;
    }
    passed += unitsOf(part);
    elements += 1;
  }
  if (passed > units) {
    throw new InsideCharacter(`unit ${units} is the second half of a pair`);
  }
  if (passed < units) {
    throw new BehindEnd(`there are ${passed} units, and not ${units}`);
  }
  return elements;
}

/** How many UTF-16 units stand in front of a place in elements, in a string or in the parts of a document. */
export function toUnits(parts, elements) {
  let units = 0;
  let passed = 0;
  for (const part of parts) {
    if (passed === elements) {
      return units;
    }
    units += unitsOf(part);
    passed += 1;
  }
  if (passed < elements) {
    throw new BehindEnd(`there are ${passed} elements, and not ${elements}`);
  }
  return units;
}

// ---- the engine

/** An engine of its own, with its own memory. */
export async function load(source = new URL("vemiktag.wasm", import.meta.url)) {
  const module = source instanceof WebAssembly.Module ? source : await WebAssembly.compile(await bytesOf(source));
  return new Engine(await WebAssembly.instantiate(module));
}

async function bytesOf(source) {
  if (!(source instanceof URL)) {
    return source;
  }
  if (source.protocol === "file:") {
    const { readFile } = await import("node:fs/promises");
    return readFile(source);
  }
  const answer = await fetch(source);
  if (!answer.ok) {
    throw new VemiktagError(`${source}: ${answer.status}`);
  }
  return answer.arrayBuffer();
}

/** The module and its memory. Pointers and counts of bytes are BigInts there. */
class Engine {
  #calls;
  #isBroken = false;
  #piece;
  #count;

  constructor(instance) {
    this.#calls = instance.exports;
    this.#piece = this.take(PIECE);
    this.#count = this.take(8);
  }

  /** How many bytes of memory it has. */
  get memory() {
    return this.#calls.memory.buffer.byteLength;
  }

  /** Its memory doesn't grow beyond so many bytes: a call for which it would have to throws OutOfMemory. */
  limitMemory(bytes) {
    this.call("heap_limit", BigInt(bytes));
  }

  /** Calls a function of the module. What it throws isn't foreseen, and leaves the module in the middle of something. */
  call(name, ...given) {
    if (this.#isBroken) {
      throw new Broken("the engine stopped before");
    }
    try {
      return this.#calls[name](...given);
    } catch (cause) {
      this.#isBroken = true;
      throw new Broken(`the engine stopped: ${cause.message}`, { cause });
    }
  }

  /** Calls a function that takes the place of a count last; returns the status and the count. */
  counted(name, ...given) {
    const status = this.call(name, ...given, this.#count);
    return { status, count: Number(new DataView(this.#calls.memory.buffer).getBigUint64(Number(this.#count), true)) };
  }

  /** Room for so many bytes. */
  take(bytes) {
    const at = this.call("heap_take", BigInt(bytes));
    if (at === 0n) {
      throw new OutOfMemory("there was no memory for what goes in or comes out");
    }
    return at;
  }

  give(at) {
    if (!this.#isBroken) {
      this.call("heap_give", at);
    }
  }

  /** These bytes of the memory, until the next call: it may have moved then. */
  bytes(at, count) {
    return new Uint8Array(this.#calls.memory.buffer, Number(at), count);
  }

  /** What `use` returns where it is given these bytes, or this text, in the memory. */
  given(given, use) {
    const bytes = typeof given === "string" ? encoded(given) : given;
    const at = bytes.length <= PIECE ? this.#piece : this.take(bytes.length);
    this.bytes(at, bytes.length).set(bytes);
    const answer = use(at, BigInt(bytes.length));
    if (at !== this.#piece) {
      this.give(at);
    }
    return answer;
  }

  /** The next bytes that wait, so many, as text. They come piece by piece, so that it takes no memory of the module. */
  told(reads, count) {
    const bytes = new Uint8Array(count);
    for (let have = 0; have < count; ) {
      const { count: more } = this.counted(...reads, this.#piece, BigInt(Math.min(PIECE, count - have)));
      if (more === 0) {
        throw new Broken("fewer bytes wait than was told");
      }
      bytes.set(this.bytes(this.#piece, more), have);
      have += more;
    }
    return decoder.decode(bytes);
  }
}

/** The report of the session whose lines these are, and whether nothing was refused or skipped. */
export function report(engine, events, room = PIECE) {
  const at = engine.take(room);
  try {
    const { status, count } = engine.given(events, (input, length) => engine.counted("vemiktag_report", input, length, at, BigInt(room)));
    if (status !== TOO_SMALL) {
      return { clean: expectTaken(status) === DONE, text: decoder.decode(engine.bytes(at, count)) };
    }
    room = count;
  } finally {
    engine.give(at);
  }
  return report(engine, events, room);
}

/** What the module holds of a client or a session: the struct of vemiktag.h. */
class Handle {
  #engine;
  #kind;
  #at;

  constructor(engine, kind) {
    this.#engine = engine;
    this.#kind = kind;
    this.#at = engine.take(16);
    engine.bytes(this.#at, 16).fill(0);
    const status = this.call("new");
    if (status !== DONE) {
      this.free();
    }
    expectTaken(status);
  }

  call(name, ...given) {
    return this.#engine.call(...this.#callOf(name), ...given);
  }

  counted(name, ...given) {
    return this.#engine.counted(...this.#callOf(name), ...given);
  }

  given(given, use) {
    return this.#engine.given(given, use);
  }

  told(count) {
    return this.#engine.told(this.#callOf("read"), count);
  }

  free() {
    if (this.#at !== 0n) {
      this.call("free");
      this.#engine.give(this.#at);
      this.#at = 0n;
    }
  }

  #callOf(name) {
    if (this.#at === 0n) {
      throw new Closed("it was freed");
    }
    return [`vemiktag_${this.#kind}_${name}`, this.#at];
  }
}

/** Frees what was forgotten. */
const forgotten = new FinalizationRegistry((handle) => {
  try {
    handle.free();
  } catch {
    // The engine is broken: there is nothing to free.
  }
});

/** A session whose lines come one after another. */
export class Session {
  #handle;

  constructor(engine) {
    this.#handle = new Handle(engine, "session");
    forgotten.register(this, this.#handle);
  }

  /** What an event writes, and whether it was taken. */
  line(event) {
    const { status, count } = this.#handle.given(event, (at, length) => this.#handle.counted("line", at, length));
    return { taken: expectTaken(status) === DONE, text: this.#handle.told(count) };
  }

  /** The last lines, and whether nothing was refused or skipped. The session takes no more lines then. */
  end() {
    const { status, count } = this.#handle.counted("close");
    return { clean: expectTaken(status) === DONE, text: this.#handle.told(count) };
  }

  /** Frees what the session holds. It does no harm to free it twice. */
  free() {
    this.#handle.free();
  }
}

/** One editor's copy of the document. Where a call throws Refused, nothing changed. */
export class Client {
  #handle;

  /** An empty document, or that of a summary. */
  constructor(engine, summary) {
    this.#handle = new Handle(engine, "client");
    forgotten.register(this, this.#handle);
    if (summary !== undefined) {
      this.#give("load", textOf(summary));
    }
  }

  /** Waits for the join of the connection of this name, a new one. It is online once it has processed the join. */
  connect(name) {
    this.#give("connect", name);
  }

  /** Its connection is gone; what it has pending stays so. */
  drop() {
    this.#expect(this.#handle.call("drop"));
  }

  /** Takes an operation of its own, as docs/FORMATS.md has it, of the text or of the grid. */
  edit(op, address = "text") {
    this.#give("edit", write({ client: "", do: "edit", address, op }));
  }

  insert(place, text) {
    this.edit({ type: 0, pos1: place, seg: text });
  }

  remove(start, end) {
    this.edit({ type: 1, pos1: start, pos2: end });
  }

  /** Takes the next message of the log: the text of one, as a string or as bytes, or the object. */
  process(message) {
    this.#give("process", textOf(message));
  }

  /** The drafts that it has to send, oldest first, as objects. Each counts as sent once it is taken. */
  *outgoing() {
    for (let draft = this.#told("outgoing"); draft !== null; draft = this.#told("outgoing")) {
      yield read(draft);
    }
  }

  /** The lines of what it shows. */
  view() {
    return linesOf(this.#told("view"));
  }

  /** From now on `changes` tells what changes, first from nothing to what it shows now; or it doesn't any more. */
  tell(listens = true) {
    this.#expect(this.#handle.call("tell", listens ? 1 : 0));
  }

  /** The changes since it was last asked, in order, as objects. Null where it isn't told. */
  changes() {
    const told = this.#told("changes");
    return told === null ? null : linesOf(told).map(read);
  }

  /** Its text, without the markers. */
  text() {
    const line = this.view().find((it) => it.startsWith("text "));
    return JSON.parse(line.slice("text ".length));
  }

  /** Frees what the client holds. It does no harm to free it twice. */
  free() {
    this.#handle.free();
  }

  #give(name, text) {
    this.#expect(this.#handle.given(text, (at, length) => this.#handle.call(name, at, length)));
  }

  #told(name) {
    return this.#expect(this.#handle.call(name)) === NOTHING ? null : this.#waiting();
  }

  #expect(status) {
    if (expectTaken(status) === SOME_REFUSED) {
      throw new Refused(this.#waiting().trimEnd());
    }
    return status;
  }

  #waiting() {
    return this.#handle.told(this.#handle.counted("waiting").count);
  }
}

function textOf(value) {
  return typeof value === "string" || value instanceof Uint8Array ? value : write(value);
}

function linesOf(text) {
  return text.split("\n").slice(0, -1);
}

// ---- what an editor shows

/**
 * What an editor shows that applies changes: it has the lines of the view of the client that told them.
 *
 * `elements` are pairs of a character or a marker and its properties.
 */
export class Shown {
  elements = [];
  rows = 0;
  cols = 0;
  #intervals = new Map();
  #cells = new Map();

  /** Applies changes, in order. */
  apply(changes) {
    for (const change of changes) {
      this.#apply(change);
    }
  }

  /** The characters and the markers. */
  *parts() {
    for (const [part] of this.elements) {
      yield part;
    }
  }

  /** The text, with this in place of each marker: with U+FFFC its places in units are those of the parts. */
  text(marker = "") {
    return this.elements.map(([part]) => (typeof part === "string" ? part : marker)).join("");
  }

  /** The intervals, by label and id. */
  intervals() {
    return [...this.#intervals.values()].sort((a, b) => byScalars(a.label, b.label) || byScalars(a.id, b.id));
  }

  /** The cells that have a value, by row and column. */
  cells() {
    return [...this.#cells.values()].sort((a, b) => a.row - b.row || a.col - b.col);
  }

  /** The lines of what is shown, as a view has them behind its first one. */
  *lines() {
    yield `text ${JSON.stringify(this.text())}`;
    for (const [place, [part]] of this.elements.entries()) {
      if (typeof part !== "string") {
        yield `marker ${place} ${part.marker.refType}`;
      }
    }
    for (const { start, end, props } of this.#runs()) {
      yield `props ${start} ${end} ${spelled(props)}`;
    }
    for (const { label, id, start, end, props } of this.intervals()) {
      yield `interval ${JSON.stringify(label)} ${JSON.stringify(id)} ${start} ${end} ${spelled(props)}`;
    }
    if (this.rows + this.cols > 0) {
      yield `rows ${this.rows} cols ${this.cols}`;
    }
    for (const { row, col, value } of this.cells()) {
      yield `cell ${row} ${col} ${spelled(value)}`;
    }
  }

  /** The runs of elements with equal properties that aren't empty. */
  *#runs() {
    let start = 0;
    while (start < this.elements.length) {
      const props = this.elements[start][1];
      let end = start + 1;
      while (end < this.elements.length && isSame(this.elements[end][1], props)) {
        end += 1;
      }
      if (Object.keys(props).length > 0) {
        yield { start, end, props };
      }
      start = end;
    }
  }

  #apply(it) {
    switch (it.change) {
      case "put":
        return this.#put(it);
      case "take":
        return this.#take(it);
      case "style":
        return this.#style(it);
      case "putUnits":
        return this.#putUnits(it);
      case "takeUnits":
        return this.#takeUnits(it);
      case "cell":
        return this.#set(it);
      case "interval":
        return void this.#intervals.set(keyOf(it), { label: it.label, id: it.id, start: it.start, end: it.end, props: it.props });
      case "gone":
        return void this.#intervals.delete(keyOf(it));
      default:
        throw new VemiktagError(`no change is called ${it.change}`);
    }
  }

  #put({ pos, seg, props }) {
    const parts = typeof seg === "string" ? [...seg] : [seg];
    putInto(
      this.elements,
      pos,
      parts.map((part) => [part, props]),
    );
    this.#moveEnds((end) => (end >= pos ? end + parts.length : end));
  }

  #take({ pos, count }) {
    this.elements.splice(pos, count);
    const left = this.elements.length;
    this.#moveEnds((end) => {
      if (end < pos) {
        return end;
      }
      return end >= pos + count ? end - count : Math.min(pos, left - 1);
    });
  }

  #style({ pos, count, props }) {
    for (let at = pos; at < pos + count; at += 1) {
      this.elements[at] = [this.elements[at][0], props];
    }
  }

  #putUnits({ target, pos, count }) {
    this[target] += count;
    this.#moveCells(target, (number) => (number >= pos ? number + count : number));
  }

  #takeUnits({ target, pos, count }) {
    this[target] -= count;
    this.#moveCells(target, (number) => {
      if (number < pos) {
        return number;
      }
      return number >= pos + count ? number - count : null;
    });
  }

  #set({ row, col, value }) {
    if (value === null) {
      this.#cells.delete(placeOf(row, col));
    } else {
      this.#cells.set(placeOf(row, col), { row, col, value });
    }
  }

  #moveEnds(moved) {
    for (const it of this.#intervals.values()) {
      if (it.start >= 0) {
        it.start = moved(it.start);
        it.end = moved(it.end);
      }
    }
  }

  #moveCells(target, moved) {
    const field = target === "rows" ? "row" : "col";
    const cells = [...this.#cells.values()];
    this.#cells.clear();
    for (const cell of cells) {
      const number = moved(cell[field]);
      if (number !== null) {
        const it = { ...cell, [field]: number };
        this.#cells.set(placeOf(it.row, it.col), it);
      }
    }
  }
}

/** Puts items into a list. A call takes only so many arguments, so many items go in by another list. */
function putInto(list, pos, items) {
  if (items.length <= 1000) {
    list.splice(pos, 0, ...items);
    return;
  }
  const behind = list.splice(pos);
  for (const item of [...items, ...behind]) {
    list.push(item);
  }
}

function keyOf({ label, id }) {
  return JSON.stringify([label, id]);
}

function placeOf(row, col) {
  return `${row} ${col}`;
}

/** Whether properties are equal; 1 and true are not. */
function isSame(props, others) {
  return props === others || spelled(props) === spelled(others);
}

/** The one text of a JSON value, as views have it: keys rise by their scalars, also those that JavaScript keeps in another order. */
function spelled(value) {
  if (Array.isArray(value)) {
    return `[${value.map(spelled).join(",")}]`;
  }
  if (typeof value === "object" && value !== null) {
    const keys = Object.keys(value).sort(byScalars);
    return `{${keys.map((key) => `${JSON.stringify(key)}:${spelled(value[key])}`).join(",")}}`;
  }
  return typeof value === "bigint" ? String(value) : JSON.stringify(value);
}

/** Compares strings by their scalars, as UTF-8 does. By units, a pair would stand in front of U+E000 and those behind it. */
function byScalars(a, b) {
  const common = Math.min(a.length, b.length);
  for (let at = 0; at < common; at += 1) {
    if (a[at] !== b[at]) {
      return rankOf(a.charCodeAt(at)) - rankOf(b.charCodeAt(at));
    }
  }
  return a.length - b.length;
}

function rankOf(unit) {
  if (unit < 0xd800) {
    return unit;
  }
  return unit < 0xe000 ? unit + 0x2000 : unit - 0x800;
}
