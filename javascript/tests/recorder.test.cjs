"use strict";
const assert = require("node:assert");
const fs = require("node:fs");
const os = require("node:os");
const path = require("node:path");
const test = require("node:test");
const {
  check, checkLevel, levelWords, Mistake, NoEffect, NotChecked, NotKept, NotLinearizable, Recorder, words,
} = require("../regcheck.cjs");

function ticking() {
  let time = 0n;
  return () => (time += 1000000n);
}

function throws(error) {
  return () => {
    throw error;
  };
}

/** Runs something while a variable of the environment names another program. */
function withProgram(variable, program, use) {
  const before = process.env[variable];
  process.env[variable] = program;
  try {
    use();
  } finally {
    if (before === undefined) delete process.env[variable];
    else process.env[variable] = before;
  }
}

const folder = fs.mkdtempSync(path.join(os.tmpdir(), "regcheck-"));
test.after(() => fs.rmSync(folder, { recursive: true }));

test("each line says what happened, who called, and when", async () => {
  const output = path.join(folder, "output.jsonl");
  const recorder = new Recorder({ output, clock: ticking() });
  const [one, two] = [recorder.client("one", "a"), recorder.client()];
  const [late, refused] = [new Error("no answer in time"), new Error("connection refused")];
  await one.write("x", () => {});
  await assert.rejects(one.write("x", throws(late)), late);
  await assert.rejects(one.write('"y"', throws(new NoEffect(refused))), (error) => error.cause === refused);
  for (const given of [null, undefined, "-3", 9223372036854775807n, Buffer.from("12")]) {
    assert.strictEqual(await two.read("x", async () => given), given);
  }
  await two.writeValue("x", -3n, (value) => assert.strictEqual(value, -3n));
  assert.strictEqual(await two.cas("x", null, 1, () => false), false);
  assert.strictEqual(await two.cas("x", -3, 1, async () => true), true);
  await assert.rejects(two.cas("x", 1, 0, throws(new NoEffect(refused))), NoEffect);
  await assert.rejects(two.cas("x", 1, 0, throws(late)), late);
  await assert.rejects(one.read("x", throws(late)), late);
  const want = `{"process":1,"event":"call","op":"write","register":"x","value":1,"client":"one","node":"a","time":1000000}
{"process":1,"event":"reply","register":"x","client":"one","node":"a","time":2000000}
{"process":1,"event":"call","op":"write","register":"x","value":2,"client":"one","node":"a","time":3000000}
{"process":2,"event":"call","op":"write","register":"\\"y\\"","value":1,"client":"one","node":"a","time":4000000}
{"process":2,"event":"fail","register":"\\"y\\"","client":"one","node":"a","time":5000000}
{"process":3,"event":"call","op":"read","register":"x","time":6000000}
{"process":3,"event":"reply","register":"x","value":null,"time":7000000}
{"process":3,"event":"call","op":"read","register":"x","time":8000000}
{"process":3,"event":"reply","register":"x","value":null,"time":9000000}
{"process":3,"event":"call","op":"read","register":"x","time":10000000}
{"process":3,"event":"reply","register":"x","value":-3,"time":11000000}
{"process":3,"event":"call","op":"read","register":"x","time":12000000}
{"process":3,"event":"reply","register":"x","value":9223372036854775807,"time":13000000}
{"process":3,"event":"call","op":"read","register":"x","time":14000000}
{"process":3,"event":"reply","register":"x","value":12,"time":15000000}
{"process":3,"event":"call","op":"write","register":"x","value":-3,"time":16000000}
{"process":3,"event":"reply","register":"x","time":17000000}
{"process":3,"event":"call","op":"cas","register":"x","from":null,"to":1,"time":18000000}
{"process":3,"event":"reply","register":"x","ok":false,"time":19000000}
{"process":3,"event":"call","op":"cas","register":"x","from":-3,"to":1,"time":20000000}
{"process":3,"event":"reply","register":"x","ok":true,"time":21000000}
{"process":3,"event":"call","op":"cas","register":"x","from":1,"to":0,"time":22000000}
{"process":3,"event":"fail","register":"x","time":23000000}
{"process":3,"event":"call","op":"cas","register":"x","from":1,"to":0,"time":24000000}
{"process":2,"event":"call","op":"read","register":"x","client":"one","node":"a","time":25000000}
`;
  assert.strictEqual(recorder.history(), want);
  assert.strictEqual(fs.readFileSync(output, "utf8"), want);
  assert.deepStrictEqual(recorder.mistakes, []);
});

test("processes that record one run write values of their own", async () => {
  const client = new Recorder({ valuesAfter: 1000 }).client("one");
  const written = [];
  for (let round = 0; round < 3; round++) await client.write("x", (value) => written.push(value));
  assert.deepStrictEqual(written, [1001, 1002, 1003]);
});

test("a wrong use is a mistake, also for who doesn't look", async (t) => {
  const rows = [
    ["no name", (client) => client.write("", () => {}), "is no register"],
    ["a long name", (client) => client.write("x".repeat(256), () => {}), "1 to 255 bytes"],
    ["half a letter", (client) => client.write("\ud800", () => {}), "is no register"],
    ["no text", (client) => client.write(7, () => {}), "is no register"],
    ["two calls at once", (client) => client.write("x", () => client.read("x", () => 1)), "for each task"],
    ["a fraction", (client) => client.read("x", () => 0.5), "the store gave 0.5"],
    ["a rounded number", (client) => client.read("x", () => 2 ** 53), "as a BigInt"],
    ["65 bits", (client) => client.read("x", () => 2n ** 63n), "64 bits"],
    ["a text", (client) => client.read("x", () => "7a"), 'the store gave "7a"'],
    ["a text to write", (client) => client.writeValue("x", "7", () => {}), '"7" can\'t be written'],
    ["nothing to swap for", (client) => client.cas("x", 1, null, () => true), "null can't be written"],
    ["nobody knows what", (client) => client.cas("x", undefined, 1, () => true),
      "undefined can't be written"],
    ["a rounded cas", (client) => client.cas("x", 1, 2 ** 53, () => true), "as a BigInt"],
    ["a count of what was deleted", (client) => client.deleteFound("x", () => 1),
      "the store gave 1, but a delete found a value"],
    ["nothing that may expire", async (client) => client.expires("x", null), "null can't be written"],
    ["no outcome", (client) => client.cas("x", 1, 2, () => "OK"),
      'the store gave "OK", but a cas took place'],
    ["a truth", (client) => client.read("x", () => true), "the store gave true"],
  ];
  for (const [name, use, words] of rows) {
    await t.test(name, async () => {
      const recorder = new Recorder({ folder });
      const says = (error) => error instanceof Mistake && error.message.includes(words);
      await assert.rejects(use(recorder.client("one")), says);
      assert.throws(() => recorder.assertLinearizable(name), says);
    });
  }
  const recorder = new Recorder({ folder });
  assert.throws(() => recorder.client("x".repeat(256)), Mistake);
});

test("tasks at once, under the machine's clock", async () => {
  const recorder = new Recorder({ folder });
  const store = new Map();
  const pause = () => new Promise((goOn) => setImmediate(goOn));
  const use = async (number) => {
    const client = recorder.client(`worker-${number}`);
    for (let round = 0; round < 25; round++) {
      const register = `x${number % 2}`;
      await client.write(register, async (value) => (await pause(), store.set(register, `${value}`)));
      await client.read("x0", async () => (await pause(), store.get("x0")));
    }
  };
  await Promise.all([0, 1, 2, 3].map(use));
  recorder.assertLinearizable("tasks");
  const times = recorder.history().trim().split("\n").map((line) => JSON.parse(line).time);
  assert.strictEqual(times.length, 400);
  assert.ok(times.every((time, place) => time > 0 && (place === 0 || times[place - 1] <= time)));
});

test("a yes without a completed read is none", async () => {
  const recorder = new Recorder({ folder });
  await recorder.client().write("x", () => {});
  assert.throws(() => recorder.assertLinearizable("little"), /no read was completed/);
  await recorder.client().read("x", () => 1);
  recorder.assertLinearizable("little");
  const other = new Recorder({ folder });
  await other.client().cas("x", null, 1, () => true);
  other.assertLinearizable("a cas that was answered");
});

test("two cas that find no value, at once; a search of one step gives up", async () => {
  const recorder = new Recorder({ folder });
  const [one, two] = [recorder.client(), recorder.client()];
  await one.cas("x", null, 1, () => two.cas("x", null, 1, () => true));
  const told = (kind, ...words) => (error) => error instanceof kind
    && words.every((said) => error.message.includes(said));
  withProgram("REGKIT", "/nowhere/regkit", () => {
    const no = told(NotLinearizable, "two.jsonl: not linearizable", '"kind":"search"');
    assert.throws(() => recorder.assertLinearizable("two"), no);
    recorder.bounds = { steps: 1 };
    const unknown = told(NotChecked, "two.jsonl: unknown: the search gave up", '"gave_up":{"bound":"steps"}');
    assert.throws(() => recorder.assertLinearizable("two"), unknown);
  });
  assert.strictEqual(check(recorder.history()).verdict, "no");
  assert.strictEqual(check(recorder.history(), { steps: 1 }).verdict, "unknown");
  assert.throws(() => check(recorder.history(), { configurations: 0 }), /'0' for '--configurations/);
});

test("a fault is told without regkit too", async () => {
  const recorder = new Recorder({ folder });
  await recorder.client().read("x", () => 7);
  const want = ["a_fault_1.jsonl: not linearizable", '"kind":"unwritten"',
    "/nowhere/regkit could not be run"];
  const told = (error) => error instanceof NotLinearizable
    && want.every((words) => error.message.includes(words));
  withProgram("REGKIT", "/nowhere/regkit",
    () => assert.throws(() => recorder.assertLinearizable("a fault/1"), told));
  assert.strictEqual(fs.readFileSync(path.join(folder, "a_fault_1.jsonl"), "utf8"), recorder.history());
});

test("failed tests of one name have files of their own, and a pass deletes earlier ones", async () => {
  const named = (name) => path.join(folder, name);
  fs.writeFileSync(named("earlier.report"), "");
  for (const [value, file] of [[7, "same.jsonl"], [8, "same-2.jsonl"]]) {
    const recorder = new Recorder({ folder });
    await recorder.client().read("x", () => value);
    for (let time = 0; time < 2; time++) {
      assert.throws(() => recorder.assertLinearizable("same"), NotLinearizable);
    }
    assert.strictEqual(fs.readFileSync(named(file), "utf8"), recorder.history());
  }
  for (const test of ["earlier", "same"]) {
    const recorder = new Recorder({ folder });
    await recorder.client().read("x", () => null);
    recorder.assertLinearizable(test);
  }
  const left = ["same-3.jsonl", "earlier.report", "same.report"].map((name) => fs.existsSync(named(name)));
  assert.deepStrictEqual(left, [false, false, true]);
});

test("a folder isn't taken for a program of its name", () => {
  const beside = path.join(folder, "beside");
  fs.mkdirSync(path.join(beside, "regsearch"), { recursive: true });
  fs.writeFileSync(path.join(beside, "regcheck"), "#!/bin/sh\nexit 2\n", { mode: 0o755 });
  withProgram("REGCHECK", path.join(beside, "regcheck"), () => assert.throws(() => check("[]\n"),
    (error) => !error.message.includes("could not be run")));
  withProgram("REGCHECK", "", () => withProgram("PATH", `${folder}:${beside}/..`, () => {
    fs.mkdirSync(path.join(folder, "regcheck"));
    assert.throws(() => check(""), /regcheck was not found/);
  }));
});

test("the checker's own words say why there is no verdict", () => {
  assert.throws(() => check("[]\n"),
    (error) => error instanceof NotChecked && error.message.startsWith("line 1: "));
  withProgram("REGSEARCH", "/nowhere/regsearch", () => assert.throws(() => check("[]\n"),
    /\/nowhere\/regsearch could not be run/));
  withProgram("REGCHECK", "/nowhere/regcheck", () => assert.throws(() => check(""),
    /\/nowhere\/regcheck could not be run/));
});

test("the words on any history are those of regkit", async () => {
  const recorder = new Recorder();
  const [one, two] = [recorder.client(), recorder.client()];
  await one.cas("x", null, 1, () => two.cas("x", null, 1, () => true));
  const history = recorder.history();
  const regkit = path.join(folder, "regkit");
  fs.writeFileSync(regkit, '#!/bin/sh\necho "$2: $*"\ngrep -q gave_up "$3" && exit 6\nexit 1\n',
    { mode: 0o755 });
  withProgram("REGKIT", regkit, () => {
    assert.match(words(history, check(history)),
      /^explain \S+history.jsonl \S+history.report --color never$/);
    const few = { steps: 1 };
    assert.match(words(history, check(history, few), few), /^explain \S+ \S+ --color never --steps 1$/);
    assert.strictEqual(words("", check("")), "");
  });
  withProgram("REGKIT", "/nowhere/regkit",
    () => assert.throws(() => words(history, check(history)), NotChecked));
});

/** One session reads the newer value, and then the older one. */
async function goesBack() {
  const recorder = new Recorder({ folder });
  await recorder.client("one").write("x", () => {});
  const two = recorder.client("two");
  await two.read("x", () => 1);
  await two.read("x", () => null);
  return recorder;
}

test("a level that is kept, and those that aren't", async () => {
  const recorder = await goesBack();
  recorder.assertLevel("level", "own_writes");
  for (const level of ["atomic", "regular", "session", "monotonic", "sequential", "causal"]) {
    assert.throws(() => recorder.assertLevel("level", level), (error) => error instanceof NotKept
      && error.message.includes("level.jsonl: keeps read your writes; not linearizable"));
  }
  assert.match(fs.readFileSync(path.join(folder, "level.html"), "utf8"), /<\/svg>/);
  assert.match(fs.readFileSync(path.join(folder, "level.report"), "utf8"), /"session":"no"/);
  const no = checkLevel(recorder.history(), "session");
  assert.match(
    levelWords(recorder.history(), no), /^keeps read your writes; .*\n {2}required: session, which doesn't/);
  assert.strictEqual(levelWords(recorder.history(), checkLevel(recorder.history(), "own_writes")), "");
  withProgram("REGKIT", "/nowhere/regkit", () => assert.throws(() => recorder.assertLevel("level", "session"),
    /level.jsonl: doesn't keep session\n {2}{"atomic":"no".*\n\n\/nowhere\/regkit could not be run/));
});

test("no answer about a level", async () => {
  const recorder = new Recorder({ folder });
  await recorder.client("one").write("x", () => {});
  const asserted = () => recorder.assertLevel("none", "session");
  assert.throws(asserted, (error) => error instanceof NotKept
    && error.message.includes("the history keeps session, but no read was completed"));
  withProgram("REGLEVEL", "/nowhere/reglevel", () => assert.throws(asserted, (error) => (
    error instanceof NotChecked && error.message.includes("no verdict: /nowhere/reglevel could not be "))));
  assert.throws(() => recorder.assertLevel("none", "weak"), /"weak" is no level: it is one of atomic, /);
  const unsure = path.join(folder, "unsure");
  fs.writeFileSync(unsure, "#!/bin/sh\nexit 6\n", { mode: 0o755 });
  const isUnsure = (error) => error instanceof NotChecked
    && error.message.includes("no verdict: causal is unknown: deciding it would take");
  const causal = () => recorder.assertLevel("none", "causal");
  withProgram("REGLEVEL", unsure, () => assert.throws(causal, isUnsure));
  await recorder.client("one").cas("x", 1, 2, () => true);
  assert.throws(asserted, (error) => error instanceof NotChecked
    && error.message.includes("; reglevel takes reads and writes of distinct values"));
});
