// A store: its child `opfs_serve`, its agents, and which answer is whose.

import { Agent, clockOf } from "./agent.mjs";
import { StoreFault, refusalOf } from "./refusals.mjs";
import { Wire } from "./wire.mjs";

const PROBE = "?\n";
const PROBED = "? NoAgent";
const PATIENCE = 1000;
const MOST_TOLD = 200;

const notHeard = (line) => new StoreFault(line.slice(2), "opfs_serve takes no such call now");

// The line of a call: the number of its agent, and the step.
function lineOf(number, word, members, data) {
  const rest = JSON.stringify(members).slice(1);
  const first = data === undefined ? `"do":"${word}"` : `"do":"${word}","data":${data}`;
  return `${number} {${first}${rest === "}" ? "" : ","}${rest}\n`;
}

export class Store {
  #wire;
  #fault = null;
  #counts;
  #waiting = new Map();
  #closed = null;

  // One agent for each of these clocks.
  constructor(wire, clocks) {
    this.#wire = wire;
    this.#counts = clocks.map(() => 0);
    this.agents = clocks.map((clock, index) => new Agent(this, index + 1, clock));
    // Called with the unit of each eviction.
    this.onevict = null;
    wire.ended.then(({ status, signal }) => this.#gone(`has ended (${signal ?? status})`));
  }

  // The first agent's.
  get navigator() {
    return this.agents[0].navigator;
  }

  // The process that has the image.
  get pid() {
    return this.#wire.pid;
  }

  // One call of an agent: what its answer has behind `ok`, or a refusal that is thrown.
  ask(number, word, members, data) {
    this.#say(lineOf(number, word, members, data));
    const line = this.#answer();
    this.#counts[number - 1] += 1;
    const start = `${number}.${this.#counts[number - 1]} ${word} `;
    if (!line.startsWith(start)) throw this.#odd(line, `instead of ${start}..`);
    return this.#read(word, line.slice(start.length));
  }

  #read(word, reply) {
    if (reply === "ok") return "";
    if (reply.startsWith("ok ")) return reply.slice(3);
    throw refusalOf(word, reply) ?? this.#odd(`${word} ${reply}`);
  }

  post(number, tag) {
    this.ask(number, "post", { tag });
    this.#probe();
  }

  // The promise of an await, which may be settled by a later call of another agent.
  await(number, tag) {
    if (this.#waiting.has(number)) throw new StoreFault("Waiting", "the agent awaits");
    this.#say(lineOf(number, "await", { tag }));
    this.#counts[number - 1] += 1;
    const promise = new Promise((done, fail) => this.#waiting.set(number, { done, fail }));
    this.#wire.hold(true);
    this.#probe(number);
    return promise;
  }

  end(number) {
    this.#say(`${number} end\n`);
    const lines = [];
    const last = new RegExp(`^${number}\\.\\d+ end ok$`);
    do {
      const line = this.#answer();
      if (!line.startsWith(`${number}.`)) throw this.#odd(line);
      lines.push(line);
    } while (!last.test(lines.at(-1)));
    this.#probe();
    return lines;
  }

  // Where an agent awaits, its answer may stand behind another call's. A line that is none is answered at once: what comes before is heard then.
  // What is said of the await of agent `number` itself may be that it is not heard.
  #probe(number) {
    if (this.#waiting.size === 0) return;
    this.#say(PROBE);
    for (let line = this.#line(); line !== PROBED; line = this.#line()) {
      if (line.startsWith("? ")) this.#refuseWait(number, line);
      else this.#settle(line);
    }
  }

  #refuseWait(number, line) {
    const { fail } = this.#takeWait(number, line);
    this.#counts[number - 1] -= 1;
    fail(notHeard(line));
  }

  #settle(line) {
    const [, number, count, reply] = /^(\d+)\.(\d+) await (.+)$/.exec(line) ?? [];
    if (Number(count) !== this.#counts[number - 1]) throw this.#odd(line);
    const { done, fail } = this.#takeWait(Number(number), line);
    try {
      done(void this.#read("await", reply));
    } catch (why) {
      fail(why);
    }
  }

  #takeWait(number, line) {
    const wait = this.#waiting.get(number);
    if (!wait) throw this.#odd(line);
    this.#waiting.delete(number);
    this.#wire.hold(this.#waiting.size > 0);
    return wait;
  }

  // The next line that is no eviction's. One that begins with `?` says why the store heard no call.
  #answer() {
    for (;;) {
      const line = this.#line();
      if (line.startsWith("? ")) throw notHeard(line);
      if (!line.startsWith("evict ")) return line;
      queueMicrotask(() => this.onevict?.(line.slice(6)));
    }
  }

  #say(text) {
    if (this.#fault !== null) throw this.#fault;
    try {
      this.#wire.say(text);
    } catch (why) {
      throw this.#fail(why);
    }
  }

  #line() {
    let line;
    try {
      line = this.#wire.line();
    } catch (why) {
      throw this.#fail(why);
    }
    if (line === null) throw this.#gone(`said no more; its last line was ${JSON.stringify(this.#wire.last)}`);
    return line;
  }

  #gone(text) {
    return this.#fail(new StoreFault("Gone", `opfs_serve ${text}`));
  }

  #odd(line, why = "") {
    return this.#fail(new StoreFault("Odd", `opfs_serve said ${JSON.stringify(line.slice(0, MOST_TOLD))} ${why}`));
  }

  // After this no call is answered: the child is ended, and who waits hears why.
  #fail(fault) {
    if (this.#fault !== null) return this.#fault;
    this.#fault = fault;
    this.#wire.kill();
    this.#failWaits();
    return fault;
  }

  #failWaits() {
    for (const { fail } of this.#waiting.values()) fail(this.#fault);
    this.#waiting.clear();
  }

  // Ends all agents, and gives how the child ended: its status or signal, and its last line.
  close() {
    this.#closed ??= this.#close();
    return this.#closed;
  }

  async #close() {
    const isWell = this.#fault === null;
    this.#fault ??= new StoreFault("Gone", "the store is closed");
    this.#wire.finish();
    if (isWell) await this.#hearEnd();
    const { status, signal } = await this.#wire.leave();
    return { status, signal, line: this.#wire.last };
  }

  // Hears what the child says at its end: of agents that still wait, and of what was open.
  async #hearEnd() {
    try {
      for (let line = await this.#wire.lineLater(); line !== null; line = await this.#wire.lineLater()) {
        if (/^\d+\.\d+ await /.test(line)) this.#settle(line);
      }
    } catch {
      this.#wire.kill();
    }
    this.#failWaits();
  }

  [Symbol.asyncDispose ?? Symbol("asyncDispose")]() {
    return this.close();
  }
}

// What the child ended with; one that does not end by itself is ended.
async function endOf(wire) {
  const late = setTimeout(() => wire.kill(), PATIENCE);
  const { status, signal, error } = await wire.leave();
  clearTimeout(late);
  return new StoreFault("Gone", error?.message ?? `opfs_serve did not begin: ${wire.last || "without a word"} (${signal ?? status})`);
}

// Starts `opfs_serve IMAGE` for these agents: each has `origin`, and may have `grants` and `clock`.
export async function openStore(image, { agents = [{ origin: "https://localhost" }], program = process.env.OPFS_SERVE ?? "opfs_serve" } = {}) {
  const clocks = agents.map(({ clock }) => clockOf(clock));
  const wire = new Wire(program, image);
  let isReady = false;
  try {
    wire.say(`${JSON.stringify({ agents: agents.map(({ origin, grants }) => ({ origin, grants })) })}\n`);
    isReady = (await wire.lineLater()) === `ready ${agents.length}`;
  } catch (why) {
    if (!(why instanceof StoreFault)) throw why;
  }
  if (!isReady) throw await endOf(wire);
  return new Store(wire, clocks);
}
