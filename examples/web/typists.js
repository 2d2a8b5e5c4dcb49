/** Editors that type at random over one server, are cut off and come back: each shows by the changes that its client tells what its view has. */

import { Editor, Server } from "./editors.js";
import { expect } from "./expect.js";
import { toElements, toUnits } from "./vemiktag.js";

const WORDS = ["tea ", "at five", "\u00e9", "\u{1f600}", "x"];
const KEYS = ["b", "i", "size", "\uffff", "\u{1f600}"];
const LABELS = ["n", "m"];

/** Pseudo-random numbers, those of `vemiktag gen`. */
class Draws {
  #state;

  constructor(seed) {
    this.#state = BigInt(seed);
  }

  below(bound) {
    this.#state = BigInt.asUintN(64, this.#state * 6364136223846793005n + 1442695040888963407n);
    return Number((this.#state >> 33n) % BigInt(bound));
  }

  of(items) {
    return items[this.below(items.length)];
  }

  happens(ofHundred) {
    return this.below(100) < ofHundred;
  }

  /** Two places of so many, in order. */
  span(count) {
    return [this.below(count), this.below(count)].sort((a, b) => a - b);
  }
}

/** An editor that types at random. */
class Typist extends Editor {
  #draws;
  #stem;
  #joins = 0;

  constructor(engine, server, stem, draws) {
    super(engine, server);
    this.#stem = stem;
    this.#draws = draws;
  }

  come() {
    this.#joins += 1;
    this.join(`${this.#stem}/${this.#joins}`);
  }

  /** Applies what was told, and compares with the view; returns the kinds of the changes. */
  compare() {
    const changes = this.update();
    const view = this.client.view().slice(1).join("\n");
    expect([...this.shown.lines()].join("\n") === view, `what is told leads to the view\n${view}`);
    this.#comparePlaces();
    return changes.map(({ change }) => change);
  }

  #comparePlaces() {
    const text = this.shown.text("\ufffc");
    const place = this.#draws.below(this.shown.elements.length + 1);
    const units = toUnits(text, place);
    expect(toUnits(this.shown.parts(), place) === units && toElements(this.shown.parts(), units) === place, "places are those of the text");
  }

  type() {
    const kind = this.#draws.below(10);
    if (kind < 6) {
      this.client.edit(this.#base());
    } else if (kind < 8) {
      this.client.edit(this.#interval());
    } else {
      this.client.edit(this.#table(), "grid");
    }
  }

  /** An insertion, a removal or an annotation. */
  #base() {
    const size = this.shown.elements.length;
    const [pos1, pos2] = this.#draws.span(size + 1);
    if (this.#draws.happens(50) || pos2 === 0) {
      return { type: 0, pos1, seg: this.#segment() };
    }
    return this.#draws.happens(50) ? { type: 1, pos1, pos2 } : { type: 2, pos1, pos2, props: this.#props() };
  }

  #segment() {
    const seg = this.#draws.happens(80) ? { text: this.#draws.of(WORDS) } : { marker: { refType: this.#draws.below(4) } };
    return this.#draws.happens(30) ? { ...seg, props: this.#props() } : seg;
  }

  #props() {
    return Object.fromEntries([this.#draws.of(KEYS), this.#draws.of(KEYS)].map((key) => [key, this.#draws.of([null, 1, true, "red"])]));
  }

  #interval() {
    const name = { label: this.#draws.of(LABELS), id: String(this.#draws.below(6)) };
    const isKnown = this.shown.intervals().some(({ label, id }) => label === name.label && id === name.id);
    const size = this.shown.elements.length;
    const [start, end] = size > 0 ? this.#draws.span(size) : [-1, -1];
    if (!isKnown) {
      return { interval: "add", ...name, start, end, props: this.#props() };
    }
    return this.#draws.happens(50) ? { interval: "change", ...name, start, end, props: this.#props() } : { interval: "delete", ...name };
  }

  #table() {
    const target = this.#draws.of(["rows", "cols"]);
    const units = this.shown[target];
    if (this.#draws.happens(40) || this.shown.rows === 0 || this.shown.cols === 0) {
      return { type: 0, target, pos1: this.#draws.below(units + 1), count: this.#draws.below(3) + 1 };
    }
    if (this.#draws.happens(40)) {
      const [pos1, pos2] = this.#draws.span(units + 1);
      return { type: 1, target, pos1, pos2 };
    }
    const [row, col] = [this.#draws.below(this.shown.rows), this.#draws.below(this.shown.cols)];
    return { type: "set", row, col, value: this.#draws.of([null, 7, "v", [1, { k: null }]]) };
  }
}

function step(typist, draws) {
  const kind = draws.below(20);
  if (kind < 10) {
    typist.type();
  } else if (kind < 14 && typist.isOnline) {
    typist.submit();
  } else if (kind < 19) {
    typist.deliver();
  } else if (typist.isOnline) {
    typist.leave();
  } else {
    typist.come();
    typist.deliver();
  }
  return typist.compare();
}

/** All get to know all. */
function settle(typists) {
  typists.filter((typist) => !typist.isOnline).forEach((typist) => typist.come());
  for (const typist of [...typists, ...typists]) {
    typist.deliver();
    typist.submit();
  }
  for (const typist of typists) {
    typist.deliver();
    typist.compare();
  }
}

function typeFrom(engine, seed, steps) {
  const draws = new Draws(seed);
  const server = new Server();
  const typists = ["ann", "bob", "cy"].map((name) => new Typist(engine, server, name, draws));
  const kinds = [];
  typists.forEach((typist) => typist.come());
  for (let count = 0; count < steps; count += 1) {
    kinds.push(...step(draws.of(typists), draws));
  }
  settle(typists);
  const [first, ...others] = typists.map(({ shown }) => [...shown.lines()].join("\n"));
  expect(others.every((other) => other === first), "all show the same");
  typists.forEach(({ client }) => client.free());
  return kinds;
}

/** Three editors type from each seed so many steps. */
export function typeAtRandom(engine, seeds, steps) {
  const kinds = new Set(seeds.flatMap((seed) => typeFrom(engine, seed, steps)));
  expect(kinds.size === 8, `each kind of change was told, and not only ${[...kinds]}`);
  return `three editors type at random, ${seeds.length} times ${steps} steps: changes lead to the views, and all show the same`;
}
