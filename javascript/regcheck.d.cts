/** What a store gives: a whole number of 64 bits, its text or the bytes of it, or nothing. */
export type Given = number | bigint | string | Uint8Array | null | undefined;

/** Asks the store for a change, and tells whether it took place. */
export type Told = () => boolean | Promise<boolean>;

/** The recorder was used in a way that would make the history wrong. */
export class Mistake extends Error {}

/** No order of the operations explains what the clients saw, or too little was read to say so. */
export class NotLinearizable extends Error {}

/** Some register doesn't keep the level, or too little was read to say so. */
export class NotKept extends Error {}

/** The checker gave no verdict: it refused the history, its search gave up, or it failed. */
export class NotChecked extends Error {}

/** Throw it from a call that certainly had no effect, and never will have. */
export class NoEffect extends Error {
  constructor(cause: unknown);
}

/** Where the search gives up that cas and repeated values need. Bounds count work and never time. */
export interface Bounds {
  /** By default 1,000,000,000. */
  steps?: number;
  /** By default 65,536. */
  configurations?: number;
}

/** Makes one call after another. */
export class Client {
  private constructor();
  write(register: string, set: (value: number) => unknown): Promise<unknown>;
  writeValue<V extends number | bigint>(register: string, value: V, set: (value: V) => unknown): Promise<unknown>;
  read<V extends Given>(register: string, get: () => V | Promise<V>): Promise<V>;
  cas(register: string, from: number | bigint | null, to: number | bigint,
    swap: Told): Promise<boolean>;
  create(register: string, value: number | bigint, put: Told): Promise<boolean>;
  replace(register: string, value: number | bigint, put: Told): Promise<boolean>;
  lock(register: string, owner: number | bigint, take: Told): Promise<boolean>;
  unlock(register: string, owner: number | bigint, free: Told): Promise<boolean>;
  delete(register: string, remove: () => unknown): Promise<unknown>;
  deleteFound(register: string, remove: Told): Promise<boolean>;
  swap<V extends Given>(register: string, value: number | bigint, exchange: () => V | Promise<V>): Promise<V>;
  expires(register: string, value: number | bigint): void;
}

export interface Options {
  /** A path whose file gets each line at once. */
  output?: string | null;
  /** Gives nanoseconds; by default the machine's monotonic clock. */
  clock?: () => bigint;
  /** What the values of a register's writes come after; by default 0. */
  valuesAfter?: number;
  /** Where assertLinearizable leaves what it found; by default regcheck-failures. */
  folder?: string;
  bounds?: Bounds;
}

/** A guarantee that a store may give of each of its keys, or, as "causal", of all of them together.
 * docs/levels.md explains them. */
export type Level = "atomic" | "regular" | "session" | "own_writes" | "monotonic" | "sequential" | "causal";

/** A history in the making. */
export class Recorder {
  constructor(options?: Options);
  bounds: Bounds;
  folder: string;
  readonly mistakes: Mistake[];
  client(name?: string, node?: string): Client;
  history(): string;
  assertLinearizable(test: string): void;
  assertLevel(test: string, level: Level): void;
}

export interface Answer {
  verdict: "yes" | "no" | "unknown";
  report: string;
}

/** The verdict on a history. Throws NotChecked if there is none. */
export function check(history: string, bounds?: Bounds): Answer;

/** Why a history isn't linearizable, or what to do if nobody knows; of a yes, nothing. */
export function words(history: string, answer: Answer, bounds?: Bounds): string;

export interface LevelAnswer {
  level: Level;
  kept: boolean;
  /** That of reglevel. */
  report: string;
}

/** Whether each register of a history keeps a level. Throws NotChecked if there is no answer. */
export function checkLevel(history: string, level: Level): LevelAnswer;

/** Why a history doesn't keep a level; if it does, nothing. */
export function levelWords(history: string, answer: LevelAnswer): string;
