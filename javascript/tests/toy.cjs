"use strict";
/**
 * Runs toy stores whose events are the same in each language. tests/languages compares what is said of them.
 */
const { Recorder } = require("../regcheck.cjs");

/**
 * Records one run of a store, and prints the verdict in words. The first word of the command line says which
 * store: faulty or right, or, for the right one and a search that soon gives up, bounded.
 */
async function run(name, record) {
  let time = 0n;
  const kind = process.argv[2];
  const bounds = kind === "bounded" ? { steps: 1 } : {};
  const recorder = new Recorder({ folder: "kept", clock: () => (time += 1000000n), bounds });
  await record(recorder, kind !== "faulty");
  try {
    recorder.assertLinearizable(name);
    console.log("linearizable");
  } catch (error) {
    console.log(error.message);
    process.exitCode = 1;
  }
}

module.exports = { run };
