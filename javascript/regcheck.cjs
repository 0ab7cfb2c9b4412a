"use strict";
/**
 * Records what the clients of a store call and get, and asks the programs `regcheck` and `regsearch` whether
 * it is linearizable, or the program `reglevel` whether it keeps a weaker level.
 *
 *     const { Recorder } = require("regcheck");
 *
 *     const recorder = new Recorder();
 *     const client = recorder.client("worker-1", "replica-1");
 *     await client.write("x", (value) => store.set("x", value));
 *     const value = await client.read("x", () => store.get("x"));
 *     recorder.assertLinearizable("the store");
 *
 * It needs Node 20 and nothing else. Clients of one thread share a recorder.
 */
const { spawnSync } = require("node:child_process");
const fs = require("node:fs");
const os = require("node:os");
const path = require("node:path");

const NAME_BYTES = 255;
const [LEAST, GREATEST] = [-(2n ** 63n), 2n ** 63n - 1n];
const [ATOMIC, NOT_ATOMIC, REFUSED, GAVE_UP] = [0, 1, 2, 6]; // exit statuses of the programs
const CAUSAL = "causal"; // of all registers together
const LEVELS = ["atomic", "regular", "session", "own_writes", "monotonic", "sequential", CAUSAL];
const UNKNOWN = "causal is unknown: deciding it would take more memory or work than reglevel spends. It is "
  + "decided for fewer sessions, or a shorter run";
const VERDICTS = { [ATOMIC]: "yes", [NOT_ATOMIC]: "no", [GAVE_UP]: "unknown" };

/**
 * The recorder was used in a way that would make the history wrong. The call stays pending, or isn't made.
 */
class Mistake extends Error {}

/** No order of the operations explains what the clients saw, or too little was read to say so. */
class NotLinearizable extends Error {}

/** Some register doesn't keep the level, or too little was read to say so. */
class NotKept extends Error {}

/** The checker gave no verdict: it refused the history, its search gave up, or it failed. */
class NotChecked extends Error {}

/**
 * Throw it from a call that certainly had no effect, and never will have: the connection was refused, say.
 * Don't throw it when a call timed out: if the store did the write after all, that invents a fault.
 */
class NoEffect extends Error {
  constructor(cause) {
    super(`the call had no effect: ${cause?.message ?? cause}`, { cause });
  }
}

/** The name in JSON. Throws Mistake if it can't name a register; clients and nodes keep to the same rule. */
function quoted(name, what) {
  if (typeof name === "string" && name.isWellFormed() && name !== ""
      && Buffer.byteLength(name) <= NAME_BYTES) {
    return JSON.stringify(name);
  }
  throw new Mistake(`${JSON.stringify(name)} is no ${what}: name it by a text of 1 to ${NAME_BYTES} bytes`);
}

const shown = (value) => (typeof value === "string" ? JSON.stringify(value) : String(value));

/** What the store gave, as the history has it. Throws Mistake if it is no value of a register. */
function numberOf(value) {
  if (value === null || value === undefined) return "null";
  if (Buffer.isBuffer(value)) return numberOf(value.toString());
  const isWhole = Number.isSafeInteger(value) || typeof value === "bigint"
    || (typeof value === "string" && /^-?[0-9]{1,19}$/.test(value));
  if (isWhole && BigInt(value) >= LEAST && BigInt(value) <= GREATEST) return BigInt(value).toString();
  throw new Mistake(`the store gave ${shown(value)}, but a value is a whole number of 64 bits, its text, or `
    + "null; give a number above 9007199254740991 as a BigInt");
}

/** A value that the caller lets a call write, as the history has it. Throws Mistake if it is none. */
function written(value) {
  const isWhole = Number.isSafeInteger(value) || typeof value === "bigint";
  if (isWhole && BigInt(value) >= LEAST && BigInt(value) <= GREATEST) return BigInt(value).toString();
  throw new Mistake(`${shown(value)} can't be written: a value is a whole number of 64 bits; `
    + "give one above 9007199254740991 as a BigInt");
}

/** What a change did, as the history has it. Throws Mistake if the store didn't say. */
function outcomeOf(value, words = "a cas took place, true, or missed, false") {
  if (typeof value === "boolean") return String(value);
  throw new Mistake(`the store gave ${shown(value)}, but ${words}`);
}

const TOLD = "a delete found a value, true, or none, false";

/** Makes one call after another. */
class Client {
  #recorder;
  #who;
  #process = 0;
  #spent = true; // whether the process has a call that isn't ended; true before the first call
  #open = false; // whether a call is open right now

  constructor(recorder, who) {
    this.#recorder = recorder;
    this.#who = who;
  }

  /**
   * Records a write, in which `set` gives the store the value. How `set` ends decides how the call ends.
   * If it returns, the history has its reply. If it throws, nobody knows what the store did: the call
   * stays pending, and the client goes on under a new process number. If it throws NoEffect, the call
   * certainly had no effect.
   */
  async write(register, set) {
    const value = this.#recorder.nextValue(register);
    return this.writeValue(register, value, set);
  }

  /** Records a write of a value of the caller's own, which may repeat. */
  async writeValue(register, value, set) {
    this.#begin("write", register, () => `,"value":${written(value)}`);
    return this.#end(register, () => set(value), () => "");
  }

  /**
   * Records a read, in which `get` asks the store: a whole number, its text, or null. Gives what `get` gives.
   */
  async read(register, get) {
    this.#begin("read", register, () => "");
    return this.#end(register, get, (value) => `,"value":${numberOf(value)}`);
  }

  /**
   * Records a compare-and-swap, in which `swap` asks the store to write `to` if the register holds `from`,
   * null if it has no value, and tells whether that took place: true or false. It gives what `swap` gives.
   * Let that be false only if the store compared, and said that it found another value. If the store refused
   * without comparing, throw NoEffect.
   */
  async cas(register, from, to, swap) {
    const asked = () => (from === null ? "null" : written(from));
    return this.#change(register, () => `,"from":${asked()},"to":${written(to)}`, swap);
  }

  /** Records a cas by whatever name. */
  async #change(register, said, swap) {
    this.#begin("cas", register, said);
    return this.#end(register, swap, (tookPlace) => `,"ok":${outcomeOf(tookPlace)}`);
  }

  /**
   * Records a put-if-absent, in which `put` asks the store to write the value if there is none, and tells
   * whether that took place: true or false. It gives what `put` gives.
   */
  async create(register, value, put) {
    return this.#change(register, () => `,"from":null,"to":${written(value)}`, put);
  }

  /** Records a put that takes place only where there is a value; `put` tells whether it did. */
  async replace(register, value, put) {
    return this.#change(register, () => `,"unless":null,"to":${written(value)}`, put);
  }

  /** Records a lock or a try-lock; `take` tells whether the owner got it: false if anybody had it. */
  async lock(register, owner, take) {
    return this.#change(register, () => `,"from":null,"to":${written(owner)}`, take);
  }

  /**
   * Records that an owner gives a lock back, or a delete of one value alone; `free` tells whether the owner
   * had it.
   */
  async unlock(register, owner, free) {
    return this.#change(register, () => `,"from":${written(owner)},"to":null`, free);
  }

  /** Records a delete. If the store tells whether there was a value, deleteFound finds more faults. */
  async delete(register, remove) {
    this.#begin("delete", register, () => "");
    return this.#end(register, remove, () => "");
  }

  /** Records a delete, in which `remove` tells whether there was a value: true or false. */
  async deleteFound(register, remove) {
    this.#begin("delete", register, () => "");
    return this.#end(register, remove, (found) => `,"found":${outcomeOf(found, TOLD)}`);
  }

  /**
   * Records a swap, also called get-and-set: `exchange` gives the store the value, and gives the one that was
   * there, as that of a read does.
   */
  async swap(register, value, exchange) {
    this.#begin("swap", register, () => `,"value":${written(value)}`);
    return this.#end(register, exchange, (old) => `,"old":${numberOf(old)}`);
  }

  /**
   * Says that a value may expire from now on, if it is still there. Call it at the earliest moment: when its
   * time is over, less the error of the clocks; for a cache that evicts, before the store is given the value.
   */
  expires(register, value) {
    const recorder = this.#recorder;
    const said = recorder.noting(() => `${quoted(register, "register")},"from":${written(value)},"to":null`);
    this.#append(`"event":"call","op":"cas","register":${said}`, recorder.nextProcess());
  }

  #begin(op, register, values) {
    const recorder = this.#recorder;
    const said = recorder.noting(() => quoted(register, "register") + values());
    if (this.#open) {
      recorder.noting(() => {
        throw new Mistake(`the client has a call open while it calls a ${op} of ${JSON.stringify(register)}: `
          + "take a client for each task");
      });
    }
    if (this.#spent) this.#process = recorder.nextProcess();
    this.#open = this.#spent = true;
    this.#append(`"event":"call","op":"${op}","register":${said}`);
  }

  async #end(register, call, answerOf) {
    try {
      const given = await call();
      const answer = this.#recorder.noting(() => answerOf(given));
      this.#append(`"event":"reply","register":${JSON.stringify(register)}${answer}`);
      this.#recorder.reads += answer === "" ? 0 : 1;
      this.#spent = false;
      return given;
    } catch (error) {
      if (error instanceof NoEffect) {
        this.#append(`"event":"fail","register":${JSON.stringify(register)}`);
        this.#spent = false;
      }
      throw error;
    } finally {
      this.#open = false;
    }
  }

  #append(members, process = this.#process) {
    this.#recorder.append(`{"process":${process},${members}${this.#who}`);
  }
}

/**
 * A history in the making. The values of a register's writes are 1, 2, 3, and so on, unless the
 * caller chooses them.
 *
 * - `output`: a path whose file gets each line at once;
 * - `clock`: gives nanoseconds as a BigInt; by default the machine's monotonic clock;
 * - `valuesAfter`: what the values come after, by default 0. Where several processes or worker threads record
 *   one run, give each a number of its own, far from the others;
 * - `folder`: where assertLinearizable leaves what it found; by default regcheck-failures;
 * - `bounds`: of the search that cas and repeated values need: `steps`, by default 1,000,000,000, and
 *   `configurations`, by default 65,536.
 */
class Recorder {
  #lines = [];
  #processes = 0;
  #values = new Map(); // the latest value of each register
  #valuesAfter;
  #clock;
  #output;
  reads = 0; // completed ones, and changes whose answers told what was there
  mistakes = [];

  constructor({ output = null, clock = process.hrtime.bigint, valuesAfter = 0, folder = "regcheck-failures",
    bounds = {} } = {}) {
    this.folder = folder;
    this.bounds = bounds;
    this.#valuesAfter = valuesAfter;
    this.#clock = clock;
    this.#output = output === null ? null : fs.openSync(output, "w");
  }

  /** A client for one task. `regkit explain` says its name and its node, if they are given. */
  client(name = "", node = "") {
    const members = [["client", name], ["node", node]].filter(([, said]) => said !== "");
    const who = () => members.map(([what, said]) => `,"${what}":${quoted(said, what)}`).join("");
    return new Client(this, this.noting(who));
  }

  /** The lines so far, which are a history at any moment: what is open is pending. */
  history() {
    return this.#lines.join("");
  }

  /**
   * Throws unless the history is linearizable, a read was completed, and the recorder was used rightly. A cas
   * that was answered counts as a read. It says why in words, and leaves the history, its report and a page
   * that shows the fault in the folder, named after the test; a pass deletes what an earlier run left there.
   * If the search for an order gave up, nobody knows: it throws NotChecked, which says what to do. The words
   * and the page are made by `regkit`: where it isn't there, the report stands in their place.
   */
  assertLinearizable(test) {
    assertHolds(this, test, linearizable(this));
  }

  /**
   * Throws unless each register of the history keeps the level, a read was completed, and the recorder was
   * used rightly. The level is "atomic", "regular", "session", "own_writes", "monotonic" or "sequential"; or
   * "causal", which is of all registers together. It says why in the words of `regkit levels`, and leaves the
   * history, the report of reglevel and a page as assertLinearizable does. The page shows why the history
   * isn't linearizable. checkLevel says which histories have an answer.
   */
  assertLevel(test, level) {
    assertHolds(this, test, levelKept(level));
  }

  /**
   * For Client: what the function gives; a Mistake that it throws is kept, for a caller that
   * doesn't look at it.
   */
  noting(make) {
    try {
      return make();
    } catch (error) {
      if (error instanceof Mistake) this.mistakes.push(error);
      throw error;
    }
  }

  /** For Client: a process number that nobody has had. */
  nextProcess() {
    return ++this.#processes;
  }

  /** For Client: a value that the register never had. */
  nextValue(register) {
    const value = (this.#values.get(register) ?? this.#valuesAfter) + 1;
    this.#values.set(register, value);
    return value;
  }

  /** For Client: adds a line, which lacks its time and its end. */
  append(begin) {
    const line = `${begin},"time":${this.#clock()}}\n`;
    this.#lines.push(line);
    if (this.#output !== null) fs.writeSync(this.#output, line);
  }
}

const isFile = (place) => fs.statSync(place, { throwIfNoEntry: false })?.isFile() ?? false;

/** The path in the variable, or that of the program on PATH; else undefined. */
function find(variable, name) {
  const places = (process.env.PATH ?? "").split(path.delimiter).map((folder) => path.join(folder, name));
  return process.env[variable] || places.find(isFile);
}

/**
 * The path of a program, or that of regcheck's companion beside it, as a release has it. Throws NotChecked.
 */
function mustFind(variable, name) {
  const beside = path.join(path.dirname(find("REGCHECK", "regcheck") ?? ""), name);
  const found = !process.env[variable] && isFile(beside) ? beside : find(variable, name);
  if (found !== undefined) return found;
  throw new NotChecked(`${name} was not found: put it on PATH, or set ${variable} to its path`);
}

/** The exit status and the output of a program, as texts. Throws NotChecked if it can't be run. */
function run(program, words, input = "", more = {}) {
  const env = { ...process.env, ...more };
  const ran = spawnSync(program, words, { input, env, encoding: "utf8", maxBuffer: Infinity });
  if (ran.error && ran.error.code !== "EPIPE") {
    throw new NotChecked(`${program} could not be run: ${ran.error.message}`);
  }
  return { status: ran.status, output: ran.stdout, words: ran.stderr.trimEnd() };
}

/** The path of regsearch. Throws NotChecked, with the words by which regcheck refused the history. */
function findRegsearch(refusal) {
  try {
    return mustFind("REGSEARCH", "regsearch");
  } catch (error) {
    throw new NotChecked(`${refusal}; repeated values and cas need regsearch, but ${error.message}`);
  }
}

const optionsOf = (bounds) => Object.entries(bounds).flatMap(([name, most]) => [`--${name}`, `${most}`]);

/**
 * The verdict on a history, "yes", "no" or "unknown", and the report. regcheck decides what it accepts, and
 * regsearch what else there is: cas and repeated values. The bounds are those of regsearch. Throws
 * NotChecked, in the words of the program, if there is no verdict.
 */
function check(history, bounds = {}) {
  let program = mustFind("REGCHECK", "regcheck");
  let ran = run(program, [], history);
  if (ran.status === REFUSED) {
    program = findRegsearch(ran.words);
    ran = run(program, optionsOf(bounds), history);
  }
  const { status, output, words } = ran;
  if (status in VERDICTS) return { verdict: VERDICTS[status], report: output };
  throw new NotChecked(status === REFUSED ? words : `${program} ended with status ${status}: ${words}`);
}

/**
 * Whether each register of a history keeps a level, `kept`, and the report. It runs reglevel, which takes
 * reads and writes, each value written once to a register. Throws NotChecked, in the words of the program, if
 * there is no answer, or if reglevel gave up, as it may do on "causal"; and RangeError if there is no such
 * level.
 */
function checkLevel(history, level) {
  if (!LEVELS.includes(level)) {
    throw new RangeError(`"${level}" is no level: it is one of ${LEVELS.join(", ")}`);
  }
  const program = mustFind("REGLEVEL", "reglevel");
  const { status, output, words } = run(program, ["--stale", "--require", level], history);
  if (status === ATOMIC || status === NOT_ATOMIC) return { level, kept: status === ATOMIC, report: output };
  if (status === GAVE_UP) throw new NotChecked(UNKNOWN);
  throw new NotChecked(status === REFUSED ? `${words}; reglevel takes reads and writes of distinct values`
    : `${program} ended with status ${status}: ${words}`);
}

const owners = new Map(); // by how the files begin that failed tests of this process left

/** The files whose names begin so. */
const filesOf = (begin) => ({
  history: `${begin}.jsonl`, report: `${begin}.report`, page: `${begin}.html` });

/** The files of a failed test; with a number behind their name, if another recorder has left some. */
function filesFor(recorder, begin) {
  let free = begin;
  for (let number = 2; (owners.get(free) ?? recorder) !== recorder; number++) free = `${begin}-${number}`;
  owners.set(free, recorder);
  return filesOf(free);
}

/** Deletes what an earlier run left of a test that passed now. */
function clear(begin) {
  if (owners.has(begin)) return;
  for (const file of Object.values(filesOf(begin))) fs.rmSync(file, { force: true });
}

function keep(file, text) {
  fs.mkdirSync(path.dirname(file), { recursive: true });
  fs.writeFileSync(file, text);
}

/** How to check that a recorder's history is linearizable. */
const linearizable = ({ bounds }) => ({
  check: (history) => check(history, bounds),
  holds: (checked) => checked.verdict === "yes",
  what: "is linearizable",
  Failed: NotLinearizable,
  explain(files, checked) {
    const words = explain(files, reported(checked), () => explained(files, bounds), files.report);
    if (checked.verdict === "no") return words;
    throw new NotChecked(`${words}\nbounds: give the recorder bounds with more steps or configurations`);
  },
});

/** How to check that a history keeps a level. The page is that of the report of regcheck. */
const levelKept = (level) => ({
  check: (history) => checkLevel(history, level),
  holds: (checked) => checked.kept,
  what: `keeps ${level}`,
  Failed: NotKept,
  explain(files, checked, history) {
    return explain(
      files, lacking(checked), () => levelExplained(files, level), "-", () => check(history).report);
  },
});

function assertHolds(recorder, test, { check: ask, holds, what, Failed, explain: explainIn }) {
  if (recorder.mistakes.length > 0) throw recorder.mistakes[0];
  const begin = path.join(recorder.folder, test.replace(/[^A-Za-z0-9._-]+/g, "_").slice(-200));
  const history = recorder.history();
  const kept = () => {
    const files = filesFor(recorder, begin);
    keep(files.history, history);
    return files;
  };
  let checked;
  try {
    checked = ask(history);
  } catch (error) {
    if (!(error instanceof NotChecked)) throw error;
    throw new NotChecked(`no verdict: ${error.message}\n\nhistory: ${kept().history}`, { cause: error });
  }
  if (holds(checked) && recorder.reads > 0) {
    clear(begin);
    return;
  }
  const files = kept();
  keep(files.report, checked.report);
  if (holds(checked)) {
    throw new Failed(
      `too little evidence: the history ${what}, but no read was completed\n\nhistory: ${files.history}`);
  }
  throw new Failed(explainIn(files, checked, history));
}

/** Why the kept history isn't linearizable, or what to do if nobody knows, in the words of regkit. */
function explained(files, bounds) {
  const options = ["--color", "never", ...optionsOf(bounds)];
  const { status, output, words } = run(
    mustFind("REGKIT", "regkit"), ["explain", files.history, files.report, ...options]);
  if (status !== NOT_ATOMIC && status !== GAVE_UP) throw new NotChecked(words);
  return output.trimEnd();
}

/**
 * Why a history isn't linearizable, or what to do if nobody knows, as `regkit explain` says it; of a yes,
 * nothing. The answer is that of `check`, with the same bounds. Throws NotChecked if there are no words.
 */
function words(history, answer, bounds = {}) {
  if (answer.verdict === "yes") return "";
  return inFolder(history, (files) => {
    keep(files.report, answer.report);
    return explained(files, bounds);
  });
}

/** What is said of the files of a history that are gone with it, without the history's name. */
function inFolder(history, say) {
  const folder = fs.mkdtempSync(path.join(os.tmpdir(), "regcheck-"));
  const files = filesOf(path.join(folder, "history"));
  try {
    keep(files.history, history);
    return say(files).slice(`${files.history}: `.length);
  } finally {
    fs.rmSync(folder, { recursive: true });
  }
}

/** Why the kept history doesn't keep a level, in the words of regkit, by the reglevel that is found here. */
function levelExplained(files, level) {
  const { status, output, words } = run(mustFind("REGKIT", "regkit"),
    ["levels", "--color", "never", "--require", level, files.history], "",
    { REGLEVEL: mustFind("REGLEVEL", "reglevel") });
  if (status !== NOT_ATOMIC) throw new NotChecked(words);
  return output.trimEnd();
}

/**
 * Why a history doesn't keep a level, as `regkit levels` says it; if it does, nothing. The answer is that of
 * `checkLevel`. Throws NotChecked if there are no words.
 */
function levelWords(history, answer) {
  return answer.kept ? "" : inFolder(history, (files) => levelExplained(files, answer.level));
}

/**
 * The words, and where the files are, of a test that fails; it draws the page too, by a report that is given
 * if it isn't in a file. What is short stands in the place of words that there are none of.
 */
function explain(files, short, say, report, given = () => "") {
  const kept = `history: ${files.history}\nreport: ${files.report}`;
  try {
    return `${say()}\n\n${kept}\n${draw(files, report, given)}`;
  } catch (error) {
    return `${files.history}: ${short}\n\n${error.message}\n${kept}`;
  }
}

/** Where the page is, or why there is none. */
function draw(files, report, given) {
  try {
    const program = mustFind("REGKIT", "regkit");
    const { status, words } = run(program, ["draw", files.history, report, "-o", files.page], given());
    return status === 0 ? `page: ${files.page}` : `no page: ${words}`;
  } catch (error) {
    return `no page: ${error.message}`;
  }
}

/** The lines of the report whose registers lack the level. Of "causal" it is the last line. */
function lacking({ level, report }) {
  const lines = report.split("\n").filter((line) => line.includes(`"${level}":"no"`)
    && (level === CAUSAL || line.includes('"register":')));
  return [`doesn't keep ${level}`, ...lines.map((line) => `  ${line}`)].join("\n");
}

/** The verdict, and the lines of the report that it rests on. */
function reported({ verdict, report }) {
  const [words, key] = verdict === "no" ? ["not linearizable", '"fault":']
    : ["unknown: the search gave up; raise its bounds, or record runs with fewer calls open at once",
      '"gave_up":'];
  const lines = report.split("\n").filter((line) => line.includes(key)).map((line) => `  ${line}`);
  return [words, ...lines].join("\n");
}

module.exports = {
  Recorder, Client, Mistake, NoEffect, NotLinearizable, NotKept, NotChecked,
  check, words, checkLevel, levelWords,
};
