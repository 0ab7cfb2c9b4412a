"use strict";
/**
 * Records three clients of a cache in front of a database, and says whether what they saw is linearizable:
 *
 *     node tests/cache.cjs faulty
 *     node tests/cache.cjs right
 *
 * The faulty one keeps a value that it read before a write. tests/languages compares what all
 * languages say of it.
 */
const { run } = require("./toy.cjs");

class Cache {
  constructor(counts) {
    this.counts = counts; // whether it keeps nothing that it read before a write
    this.database = new Map();
    this.kept = new Map();
    this.writes = new Map();
    this.loaded = async () => {}; // called between reading the database and keeping the value
  }

  async set(key, value) {
    this.database.set(key, value);
    this.writes.set(key, (this.writes.get(key) ?? 0) + 1);
    this.kept.delete(key);
  }

  async get(key) {
    if (this.kept.has(key)) return this.kept.get(key);
    const [value, writes] = [this.database.get(key), this.writes.get(key)];
    await this.loaded();
    if (!this.counts || this.writes.get(key) === writes) this.kept.set(key, value);
    return value;
  }
}

/** The writer writes again while the reader's answer from the database is on its way. */
async function record(recorder, counts) {
  const store = new Cache(counts);
  const names = ["thread-1", "thread-2", "thread-3"];
  const [writer, reader, late] = names.map((name) => recorder.client(name, "cache"));
  const [set, get] = [(value) => store.set("x", value), () => store.get("x")];
  await writer.write("x", set);
  store.loaded = () => writer.write("x", set);
  await reader.read("x", get);
  await late.read("x", get);
}

run("cache", record);
