"use strict";
/**
 * Records two clients that take a lock by compare-and-swap at once, and says whether what they
 * saw is linearizable:
 *
 *     node tests/lock.cjs faulty
 *     node tests/lock.cjs right
 *
 * The faulty register compares and swaps in two steps, so both clients get the lock. tests/languages compares
 * what all languages say of it.
 */
const { run } = require("./toy.cjs");

class Register {
  value = null;
  compared = async () => {}; // called between the two steps of a swap

  constructor(looksAgain) {
    this.looksAgain = looksAgain; // whether it swaps only what it still finds
  }

  async swap(from, to) {
    if (this.value !== from) return false;
    const { compared } = this;
    this.compared = async () => {};
    await compared();
    if (this.looksAgain && this.value !== from) return false;
    this.value = to;
    return true;
  }
}

/** A second client takes the lock while the first one is between its two steps. */
async function record(recorder, right) {
  const store = new Register(right);
  const names = ["thread-1", "thread-2", "thread-3"];
  const [first, second, third] = names.map((name) => recorder.client(name, "register"));
  const take = (client) => client.cas("lock", 0, 1, () => store.swap(0, 1));
  const free = () => first.writeValue("lock", 0, (value) => { store.value = value; });
  await free();
  store.compared = () => take(first);
  await take(second);
  await free();
  await third.read("lock", () => store.value);
}

run("lock", record);
