"use strict";
/**
 * Records one client that creates, replaces, swaps, deletes and locks, and says whether what it saw is
 * linearizable:
 *
 *     node tests/changes.cjs faulty
 *     node tests/changes.cjs right
 *
 * The faulty store gives a value that was deleted. tests/languages compares what all languages say of it.
 */
const { run } = require("./toy.cjs");

/** One client makes all calls, while another one says when a value may expire. */
async function record(recorder, right) {
  const [client, expiring] = ["thread-1", "thread-2"].map((name) => recorder.client(name, "store"));
  await client.create("x", 5, () => true);
  await client.create("x", 6, () => false);
  await client.replace("x", 7, () => true);
  await client.swap("x", 8, () => 7);
  expiring.expires("x", 8);
  await client.deleteFound("x", () => true);
  await client.read("x", () => (right ? null : 8));
  await client.delete("x", () => {});
  await client.lock("lock", 1, () => true);
  await client.unlock("lock", 1, () => true);
}

run("changes", record);
