/** Vemiktag for JavaScript: types of vemiktag.js. What each call does is told there and in README.md. */

// ---- values

/** A value of a property or a cell. A whole number that a number doesn't hold is a bigint; one that isn't whole is refused. */
export type Value = null | boolean | number | bigint | string | Value[] | { [key: string]: Value };

export type Properties = { [key: string]: Value };

/** An element that adds nothing to the text. */
export type Marker = { marker: { refType: number } };

/** Rows or columns. */
export type Target = "rows" | "cols";

// ---- operations

export type Segment = string | { text: string; props?: Properties | null } | (Marker & { props?: Properties | null });

export type Adjustment = { delta: number; min?: number | null; max?: number | null };

export type Insertion = { type: 0; pos1: number; seg: Segment };
export type Removal = { type: 1; pos1: number; pos2: number };
export type Annotation = { type: 2; pos1: number; pos2: number; props?: Properties | null; adjust?: { [key: string]: Adjustment } | null };
export type BaseOperation = Insertion | Removal | Annotation;

export type IntervalOperation =
  | { interval: "add"; label: string; id: string; start: number; end: number; props?: Properties | null }
  | { interval: "change"; label: string; id: string; start?: number; end?: number; props?: Properties | null }
  | { interval: "delete"; label: string; id: string };

/** An operation of the text. Positions count its characters and markers. */
export type TextOperation = BaseOperation | IntervalOperation | { type: 3; ops: BaseOperation[] };

export type CellOperation =
  | { type: 0; target: Target; pos1: number; count: number }
  | { type: 1; target: Target; pos1: number; pos2: number }
  | { type: "set"; row: number; col: number; value: Value };

/** An operation of the table. */
export type GridOperation = CellOperation | { type: 3; ops: CellOperation[] };

// ---- messages

/** What a client has to send: a server makes a message of it by the name of the connection and two numbers. */
export type Draft = {
  clientSequenceNumber: number;
  referenceSequenceNumber: number;
  type: "op" | "noop";
  contents: { address: "text"; contents: TextOperation } | { address: "grid"; contents: GridOperation } | null;
};

export type Message = {
  clientId: string | null;
  sequenceNumber: number;
  minimumSequenceNumber: number;
  clientSequenceNumber: number;
  referenceSequenceNumber: number;
  type: string;
  contents?: unknown;
};

// ---- changes

/** The characters, or the marker, go in with these properties, in front of the element at `pos`, or at the end. */
export type Put = { change: "put"; pos: number; seg: string | Marker; props: Properties };

/** `count` elements from `pos` on go away. */
export type Take = { change: "take"; pos: number; count: number };

/** `count` elements from `pos` on have these properties now, and no others. */
export type Style = { change: "style"; pos: number; count: number; props: Properties };

/** `count` rows or columns go in, in front of number `pos`, or at the end. */
export type PutUnits = { change: "putUnits"; target: Target; pos: number; count: number };

/** `count` rows or columns from number `pos` on go away, with their cells. */
export type TakeUnits = { change: "takeUnits"; target: Target; pos: number; count: number };

/** The cell has this value now; null: it has none any more. */
export type SetCell = { change: "cell"; row: number; col: number; value: Value };

/** The interval is new, or has these ends and these properties now. Both ends are -1 where it is detached. */
export type SetInterval = { change: "interval" } & Interval;

/** The interval is gone. */
export type Gone = { change: "gone"; label: string; id: string };

export type Change = Put | Take | Style | PutUnits | TakeUnits | SetCell | SetInterval | Gone;

export type Interval = { label: string; id: string; start: number; end: number; props: Properties };

export type Cell = { row: number; col: number; value: Value };

// ---- what is thrown

export class VemiktagError extends Error {}
export class Refused extends VemiktagError {
  /** The number of the refusal; 0 where there was no memory for its text. */
  readonly refusal: number;
  readonly why: string;
}
export class OutOfMemory extends VemiktagError {}
export class TooLong extends VemiktagError {}
export class Closed extends VemiktagError {}
export class Broken extends VemiktagError {}
export class LoneSurrogate extends VemiktagError {}
export class InsideCharacter extends VemiktagError {}
export class BehindEnd extends VemiktagError {}
export class NumberLost extends VemiktagError {}

// ---- texts and places

export function write(value: unknown): string;
export function read(text: string): unknown;

/** A string, or the parts of a document: `shown.parts()`. */
export type Parts = Iterable<string | Marker>;

export function toElements(parts: Parts, units: number): number;
export function toUnits(parts: Parts, elements: number): number;

// ---- the engine

export interface Engine {
  readonly memory: number;
  readonly isBroken: boolean;
  limitMemory(bytes: number): void;
}

/** Loads the engine: the file vemiktag.wasm beside vemiktag.js, or what is given. */
export function load(source?: URL | BufferSource | WebAssembly.Module): Promise<Engine>;

export function report(engine: Engine, events: string | Uint8Array, room?: number): { text: string; clean: boolean };

export class Session {
  constructor(engine: Engine);
  line(event: string | Uint8Array): { text: string; taken: boolean };
  end(): { text: string; clean: boolean };
  free(): void;
}

export class Client {
  constructor(engine: Engine, summary?: string | Uint8Array | object);
  connect(name: string): void;
  drop(): void;
  edit(op: TextOperation, address?: "text"): void;
  edit(op: GridOperation, address: "grid"): void;
  insert(place: number, text: string): void;
  remove(start: number, end: number): void;
  process(message: string | Uint8Array | Message): void;
  outgoing(): IterableIterator<Draft>;
  view(): string[];
  tell(listens?: boolean): void;
  changes(): Change[] | null;
  text(): string;
  free(): void;
}

export class Shown {
  readonly elements: readonly (readonly [string | Marker, Properties])[];
  readonly rows: number;
  readonly cols: number;
  apply(changes: Iterable<Change>): void;
  parts(): IterableIterator<string | Marker>;
  text(marker?: string): string;
  intervals(): Interval[];
  cells(): Cell[];
  lines(): IterableIterator<string>;
}
