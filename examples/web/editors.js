/**
 * Two editors in one page, each with a client, and what orders their messages. They type at once, one of them is cut off, types on, and comes
 * back. What they show is told after each step: the same as examples/embed/editors.py writes.
 */

import { Client, Refused, Shown } from "./vemiktag.js";

/** Orders messages, and keeps them for all. Each connection that is joined has the number to which its last draft refers. */
export class Server {
  messages = [];
  #joined = new Map();
  #minimum = 0;

  join(name) {
    this.#joined.set(name, this.#minimum);
    this.#notice(name, "join");
  }

  leave(name) {
    this.#joined.delete(name);
    this.#notice(name, "leave");
  }

  take(name, draft) {
    this.#joined.set(name, draft.referenceSequenceNumber);
    this.#put(name, draft);
  }

  #notice(name, type) {
    this.#put(name, { type, clientSequenceNumber: -1, referenceSequenceNumber: -1 });
  }

  #put(name, fields) {
    const number = this.messages.length + 1;
    this.#minimum = this.#joined.size > 0 ? Math.min(...this.#joined.values()) : number;
    this.messages.push({ ...fields, clientId: name, sequenceNumber: number, minimumSequenceNumber: this.#minimum });
  }
}

/** A client, the name of its connection, how many messages it was given, and what is shown by what it tells. */
export class Editor {
  shown = new Shown();
  #server;
  #name = null;
  #given = 0;

  constructor(engine, server) {
    this.client = new Client(engine);
    this.client.tell();
    this.#server = server;
  }

  get isOnline() {
    return this.#name !== null;
  }

  join(name) {
    this.#name = name;
    this.client.connect(name);
    this.#server.join(name);
  }

  leave() {
    this.client.drop();
    this.#server.leave(this.#name);
    this.#name = null;
  }

  submit() {
    for (const draft of this.client.outgoing()) {
      this.#server.take(this.#name, draft);
    }
  }

  deliver() {
    for (; this.#given < this.#server.messages.length; this.#given += 1) {
      this.client.process(this.#server.messages[this.#given]);
    }
  }

  /** Shows what changed; returns the changes. */
  update() {
    const changes = this.client.changes();
    this.shown.apply(changes);
    return changes;
  }

  /** The lines of what is shown, behind the first line of the client's view. */
  lines() {
    this.update();
    return [this.client.view()[0], ...this.shown.lines()];
  }
}

/** Each sends what it has, and then hears of all. */
function exchange(...editors) {
  editors.forEach((editor) => editor.submit());
  editors.forEach((editor) => editor.deliver());
}

/** What the two of them do, and what they show: lines. */
export function tellStory(engine) {
  const server = new Server();
  const ann = new Editor(engine, server);
  const bob = new Editor(engine, server);
  const lines = [];
  const show = (when) => lines.push(when, ...ann.lines(), ...bob.lines());

  ann.join("ann/1");
  bob.join("bob/1");
  exchange(ann, bob);
  ann.client.insert(0, "The cat sat.");
  exchange(ann, bob);
  show("ann has typed");
  ann.client.insert(4, "black ");
  bob.client.remove(7, 11);
  bob.client.insert(7, " slept");
  show("both have typed");
  exchange(ann, bob);
  show("each has heard of the other");
  bob.leave();
  bob.client.insert(20, " Quietly.");
  ann.client.remove(4, 10);
  ann.submit();
  ann.deliver();
  show("bob is cut off");
  bob.join("bob/2");
  bob.deliver();
  exchange(ann, bob);
  show("bob is back");
  lines.push(refusalOf(() => bob.client.insert(100, "!")));
  return lines;
}

function refusalOf(call) {
  try {
    call();
    return "not refused";
  } catch (error) {
    if (error instanceof Refused) {
      return error.message;
    }
    throw error;
  }
}
