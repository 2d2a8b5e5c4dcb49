/** The tests of vemiktag.js and of the engine, for node and for a page: tests_node.js and tests.html run them. */

import { tellStory } from "./editors.js";
import { expect } from "./expect.js";
import * as vemiktag from "./vemiktag.js";
import { typeAtRandom } from "./typists.js";

const { Client, Session, Shown, load, read, report, toElements, toUnits, write } = vemiktag;

/** What is thrown by the call, which must be of this kind. */
function expectThrown(kind, call, what) {
  try {
    call();
  } catch (error) {
    expect(error instanceof kind && error.name === kind.name, `${what}: ${kind.name}, and not ${error}`);
    return error;
  }
  throw new Error(`not so: ${what} throws ${kind.name}`);
}

/** The bytes that stand in a case as a string with a character for each. */
function bytesOf(input) {
  return Uint8Array.from(input, (character) => character.charCodeAt(0));
}

// ---- reports

/** Each session gives the native report, in one call and line by line. */
function testSessions(engine, sessions) {
  for (const { name, input, report: wanted } of sessions) {
    const bytes = bytesOf(input);
    const { text, clean } = report(engine, bytes);
    expect(text === wanted, `${name}: the report`);
    expect(clean === /\nrefused 0\nskipped 0\nother \d+\n$/.test(`\n${wanted}`), `${name}: whether all was taken`);
    expect(reportByLines(engine, bytes) === wanted, `${name}: the report line by line`);
  }
  return `${sessions.length} sessions give the native reports, in one call and line by line`;
}

function reportByLines(engine, bytes) {
  const session = new Session(engine);
  let text = "";
  let start = 0;
  while (start < bytes.length) {
    const end = bytes.indexOf(10, start);
    const line = bytes.subarray(start, end < 0 ? bytes.length : end);
    text += session.line(line).text;
    start += line.length + 1;
  }
  text += session.end().text;
  session.free();
  return text;
}

/** A client that is given the lines of a worked log refuses the same of them, and shows at the end what the log's report has. */
function testLogs(engine, logs) {
  for (const { name, command, input, report: wanted } of logs) {
    const told = linesOfLog(engine, input.split("\n"), command === "load");
    expect(told.join("\n") === wanted.split("\n").slice(0, -3).join("\n"), `${name}: what a client refuses and shows`);
  }
  return `${logs.length} worked logs: a client refuses the same lines, and shows the same`;
}

/** The report of a log up to its refused lines, by a client. How many were skipped or meant for others a client doesn't tell. */
function linesOfLog(engine, lines, loads) {
  const told = [];
  let client = loads ? null : new Client(engine);
  for (const [at, line] of lines.entries()) {
    if (!/[^ \t\r]/.test(line)) {
      continue;
    }
    try {
      if (client) {
        client.process(bytesOf(line));
      } else {
        client = new Client(engine);
        client = new Client(engine, bytesOf(line));
      }
    } catch (error) {
      told.push(`line ${at + 1} ${error.message}`);
    }
  }
  const [first, ...shown] = (client ?? new Client(engine)).view();
  return [...told, /seq \d+ min \d+/.exec(first)[0], ...shown, `refused ${told.length}`];
}

// ---- strings

/** Places in a text with emoji and markers, the one way and the other. */
function testPlaces() {
  const text = "a\u{1f600}\u00e9\u{1f468}\u200d\u{1f469}b";
  expect(toUnits(text, 2) === 3 && toElements(text, 3) === 2, "a pair is one element of two units");
  for (let elements = 0; elements <= [...text].length; elements += 1) {
    expect(toElements(text, toUnits(text, elements)) === elements, "there and back");
  }
  expectThrown(vemiktag.InsideCharacter, () => toElements(text, 2), "a place within a pair");
  expectThrown(vemiktag.BehindEnd, () => toElements(text, text.length + 1), "a place behind the end");
  expectThrown(vemiktag.BehindEnd, () => toUnits("ab", 3), "an element behind the end");
  const marker = { marker: { refType: 1 } };
  expect(toUnits(["\u{1f600}", marker, "a"], 2) === 3 && toElements(["\u{1f600}", marker, "a"], 3) === 2, "a marker counts as one unit");
  return "places: emoji, pairs, markers and ends";
}

/** What is no text is refused by name, and changes nothing. */
function testLoneSurrogates(engine) {
  const client = new Client(engine);
  client.insert(0, "\u{1f600}");
  const before = client.view().join();
  for (const half of ["\ud83d", "\ude00", "a\ude00\ud83d", "\ud83d\ud83d\ude00"]) {
    expectThrown(vemiktag.LoneSurrogate, () => client.insert(0, half), "half a pair in a text");
    expectThrown(vemiktag.LoneSurrogate, () => client.edit({ type: 2, pos1: 0, pos2: 1, props: { [half]: 1 } }), "in a key");
    expectThrown(vemiktag.LoneSurrogate, () => client.edit({ type: 2, pos1: 0, pos2: 1, props: { a: [{ b: half }] } }), "in a value");
    expectThrown(vemiktag.LoneSurrogate, () => client.connect(half), "in a name");
    expectThrown(vemiktag.LoneSurrogate, () => client.process(half), "in a message");
    expectThrown(vemiktag.LoneSurrogate, () => report(engine, half), "in a session");
  }
  expect(client.view().join() === before, "nothing changed");
  client.insert(1, "\ufeff\u0000\u{10ffff}");
  expect(client.text() === "\u{1f600}\ufeff\u0000\u{10ffff}", "all other texts come back as they were");
  client.free();
  return "lone surrogates are refused by name";
}

/** No number is rounded on its way, and keys are written in the order of their scalars. */
function testValues(engine) {
  const client = new Client(engine);
  const shown = new Shown();
  client.tell();
  const values = [2 ** 53 - 1, 18446744073709551615n, -9223372036854775808n, 9007199254740993n, "18446744073709551615", "\\u0031", [1, { k: null }]];
  for (const target of ["rows", "cols"]) {
    client.edit({ type: 0, target, pos1: 0, count: values.length }, "grid");
  }
  values.forEach((value, col) => client.edit({ type: "set", row: 0, col, value }, "grid"));
  client.insert(0, "x");
  client.edit({ type: 2, pos1: 0, pos2: 1, props: { "\u{1f600}": 1, "\uffff": 2, 10: 3, 9: 4, a: true, __proto__x: 1, ["__proto__"]: "p" } });
  shown.apply(client.changes());
  const cells = shown.cells().map(({ value }) => value);
  expect(cells.every((value, at) => write(value) === write(values[at])), "each value comes back");
  expect([...shown.lines()].join("\n") === client.view().slice(1).join("\n"), "the lines of what is shown are those of the view");
  expectThrown(vemiktag.NumberLost, () => client.edit({ type: "set", row: 0, col: 0, value: Number.NaN }, "grid"), "no number");
  const fraction = expectThrown(vemiktag.Refused, () => client.edit({ type: "set", row: 0, col: 0, value: 1.5 }, "grid"), "a fraction");
  expect(fraction.refusal === 1 && fraction.why === "Malformed Fraction", "with its number and its text");
  expect(read("[12345678901234567.5,1e300,123]").join() === "12345678901234568,1e+300,123", "what isn't whole is a Number");
  client.free();
  return "values: 64 bits, keys of every order";
}

// ---- a client's ends

/** What a client refuses, and what one does that has ended. */
function testClient(engine) {
  const client = new Client(engine);
  expect(client.changes() === null, "nobody listens");
  expect([...client.outgoing()].length === 0, "nothing is to be sent");
  const beyond = expectThrown(vemiktag.Refused, () => client.remove(0, 1), "an edit beyond the end");
  expect(beyond.refusal === 6 && beyond.why === "OutOfRange length 0", "says which");
  expectThrown(vemiktag.Refused, () => client.drop(), "a drop of a client without a connection");
  expectThrown(vemiktag.Refused, () => new Client(engine, "{}"), "no summary");
  client.connect("ana/1");
  expectThrown(vemiktag.Refused, () => client.connect("ana/2"), "a second connection");
  client.tell();
  expect(client.changes().length === 0, "nothing was told yet");
  client.tell(false);
  expect(client.changes() === null, "nobody listens any more");
  client.free();
  client.free();
  expectThrown(vemiktag.Closed, () => client.insert(0, "a"), "an edit of a client that was freed");
  const session = new Session(engine);
  expect(!session.line("{").taken && !session.end().clean, "a session says what it refused");
  expectThrown(vemiktag.Closed, () => session.line("{"), "a line behind the end");
  expectThrown(vemiktag.TooLong, () => report(engine, new Uint8Array(16777217)), "a session that is too long");
  session.free();
  return "clients and sessions: refusals, ends, lengths";
}

/** What is freed is used again. */
function testFreeing(engine, { input, report: wanted }) {
  const bytes = bytesOf(input);
  const round = () => {
    const client = new Client(engine);
    client.insert(0, "x".repeat(200000));
    client.view();
    client.free();
    expect(report(engine, bytes).text === wanted, "the report is the same each time");
  };
  for (let times = 0; times < 10; times += 1) {
    round();
  }
  const { memory } = engine;
  for (let times = 0; times < 40; times += 1) {
    round();
  }
  expect(engine.memory === memory, "the memory doesn't grow");
  return "what is freed is used again";
}

/** A client whose memory ends says so, takes nothing more, and leaves the engine as good as it was. */
async function testEndOfMemory(source) {
  const engine = await load(source);
  const client = new Client(engine);
  client.tell();
  engine.limitMemory(engine.memory + 2 * 2 ** 20);
  expectThrown(
    vemiktag.OutOfMemory,
    () => {
      for (let typed = 0; ; typed += 1000) {
        client.insert(typed, "0123456789".repeat(100));
      }
    },
    "the memory ends",
  );
  expectThrown(vemiktag.Closed, () => client.insert(0, "a"), "then the client takes nothing more");
  expectThrown(vemiktag.Closed, () => client.view(), "nor tells anything");
  expectThrown(vemiktag.OutOfMemory, () => report(engine, new Uint8Array(10000000)), "nor is there room for a long session");
  client.free();
  const other = new Client(engine);
  other.insert(0, "a");
  expect(other.text() === "a" && !engine.isBroken, "but another client does");
  return "where the memory ends, the client has ended, and the engine goes on";
}

/** With each limit of its memory the engine gives the report, or says that there was no memory. */
async function testEachLimit(source, { input, report: wanted }) {
  const bytes = bytesOf(input);
  const engine = await load(source);
  let refused = 0;
  for (let limit = engine.memory; ; limit += 65536) {
    const own = await load(source);
    own.limitMemory(limit);
    const told = attempt(() => report(own, bytes));
    if (!(told instanceof vemiktag.OutOfMemory)) {
      expect(told.text === wanted, `with ${limit} bytes the report is as it must be, and not ${told}`);
      break;
    }
    refused += 1;
    own.limitMemory(2 ** 40);
    expect(report(own, bytes).text === wanted, "and with memory again it is");
  }
  expect(refused > 3, "some limits are too low");
  return `${refused} limits of the memory are told, and no engine breaks`;
}

function attempt(call) {
  try {
    return call();
  } catch (error) {
    return error;
  }
}

/** Two editors show what those of C and Python show. */
function testStory(engine, wanted) {
  expect(`${tellStory(engine).join("\n")}\n` === wanted, "two editors show what is in editors.told");
  return "two editors: as editors.told";
}

// ---- how fast it is

/** Milliseconds of a long session's report, the first time and the best of the next ones. */
function measure(engine, { input, report: wanted }) {
  const bytes = bytesOf(input);
  const times = [];
  for (let time = 0; time < 4; time += 1) {
    const begin = performance.now();
    expect(report(engine, bytes, 2 ** 21).text === wanted, "the report of the long session");
    times.push(performance.now() - begin);
  }
  const [first, ...others] = times.map(Math.round);
  return `the report of 20,000 edits takes ${first} ms the first time, then ${Math.min(...others)} ms; ${Math.round(engine.memory / 2 ** 20)} MiB`;
}

/** Runs all tests over the module; `tell` is given a line for each. */
export async function testAll(source, { sessions, logs, long, story }, tell) {
  expect((await load()).memory > 0, "the engine beside vemiktag.js is loaded where none is named");
  const engine = await load(source);
  tell(testPlaces());
  tell(testLoneSurrogates(engine));
  tell(testValues(engine));
  tell(testClient(engine));
  tell(testFreeing(engine, sessions.find(({ name }) => name === "tea_at_five")));
  tell(await testEndOfMemory(source));
  tell(await testEachLimit(source, sessions.find(({ name }) => name === "readme_history")));
  tell(testStory(engine, story));
  tell(typeAtRandom(engine, [1, 2, 3], 2000));
  tell(testLogs(engine, logs));
  tell(measure(await load(source), long));
  tell(testSessions(engine, sessions));
}
