// One agent of a script, in a dedicated worker: does its steps in order on the browser's own store, and tells the page each line.

import { KINDS, WORDS } from "./words.js";

// A wait that is longer than the grain of the times that a browser gives files.
const GRAIN = 20;
const BUCKET_NAME = /^[a-z0-9][a-z0-9_-]{0,63}$/;

const pause = () => new Promise((done) => setTimeout(done, GRAIN));

// Tells the browser's times in the script's: each as the moment that the agent had set by then, and as 0 before the first.
class Clock {
  #marks = [];

  async set(ms) {
    await pause();
    this.#marks.push({ from: Date.now(), ms });
    await pause();
  }

  momentOf(time) {
    return this.#marks.findLast((it) => it.from <= time)?.ms ?? 0;
  }
}

class Agent {
  clock = new Clock();
  #variables = new Map();
  #open = new Set();
  #asked = new Map();
  #changes = [];
  #questions = 0;
  #opened = 0;
  #number = 0;

  constructor({ steps, folders, hasBuckets, takesTurns }) {
    Object.assign(this, { steps, folders, hasBuckets, takesTurns });
  }

  // Asks the page, which knows what agents share.
  ask(question) {
    const id = this.#questions++;
    postMessage({ ...question, id });
    return new Promise((done) => this.#asked.set(id, done));
  }

  answered({ id, ...answer }) {
    this.#asked.get(id)(answer);
    this.#asked.delete(id);
  }

  get(name) {
    return this.#variables.get(name);
  }

  bind(name, kind, it, place) {
    this.#variables.set(name, { kind, it, place });
  }

  open(name, kind, it, place, lock) {
    this.bind(name, kind, it, place);
    const opened = this.get(name);
    opened.id = this.#opened++;
    this.#open.add(opened);
    this.#changes.push({ opened: opened.id, place, lock });
  }

  shut(opened) {
    this.#open.delete(opened);
    this.#changes.push({ closed: opened.id });
  }

  // The tag is there for others once the page has this step's line.
  post(tag) {
    this.#changes.push({ posted: tag });
  }

  // What has the calls of a bucket: `navigator.storage` for the one that is not named.
  async storage(bucket) {
    if (bucket === undefined) return navigator.storage;
    if (this.hasBuckets) return navigator.storageBuckets.open(bucket);
    if (!BUCKET_NAME.test(bucket)) throw new TypeError("not a bucket's name");
    return navigator.storage;
  }

  // The directory in which this agent's origin has its bucket.
  async root(bucket) {
    let directory = await (await this.storage(bucket)).getDirectory();
    for (const name of this.folders) {
      directory = await directory.getDirectoryHandle(name, { create: true });
    }
    if (this.hasBuckets) return directory;
    return directory.getDirectoryHandle(bucket ?? "default", { create: true });
  }

  async run() {
    for (const step of this.steps) {
      await this.#tell(step.do, () => this.#answer(step));
    }
    for (const opened of this.#open) {
      if (isLive(opened)) await this.#end(opened);
    }
    await this.#tell("end", () => "ok");
    postMessage({ ask: "end" });
  }

  async #tell(word, call) {
    this.#number += 1;
    if (this.takesTurns) await this.ask({ ask: "turn" });
    const answer = await call();
    postMessage({ ask: "line", step: this.#number, word, answer, changes: this.#changes.splice(0) });
  }

  #isBound(step) {
    return Object.entries(KINDS).every(([member, kinds]) =>
      !Object.hasOwn(step, member) || kinds.includes(this.get(step[member])?.kind));
  }

  async #answer(step) {
    if (!this.#isBound(step)) return "Unbound";
    try {
      const text = await WORDS[step.do](this, step);
      return text === undefined ? "ok" : `ok ${text}`;
    } catch (refusal) {
      return this.#refusal(step, refusal?.name ?? String(refusal));
    }
  }

  // A browser tells a refusal's name alone; the lock that refuses, and its count, are what the page knows of all agents.
  async #refusal(step, name) {
    if (name !== "NoModificationAllowedError") return name;
    const { place } = this.get(step.sync ?? step.file ?? step.dir);
    const path = step.do === "removeEntry" ? [...place.path, step.name] : place.path;
    const { lock } = await this.ask({ ask: "lock", place: { unit: place.unit, path } });
    return lock ? `${name} ${lock}` : name;
  }

  // What a script's end does: a stream is aborted. No browser takes back what an access handle wrote: it is closed.
  #end(opened) {
    const isStream = opened.kind === "stream";
    return this.#tell(isStream ? "abort" : "discard", async () => {
      try {
        await (isStream ? opened.it.abort() : opened.it.close());
        this.shut(opened);
        return "ok";
      } catch (refusal) {
        return refusal?.name ?? String(refusal);
      }
    });
  }
}

// Whether a stream or handle that no step closed is open: a stream may have ended by an error.
function isLive({ kind, it }) {
  if (kind !== "stream") return true;
  const writer = it.getWriter();
  const isOpen = writer.desiredSize !== null;
  writer.releaseLock();
  return isOpen;
}

let agent;

addEventListener("message", ({ data }) => {
  if (agent) return agent.answered(data);
  agent = new Agent(data);
  // What fails here is no refusal: the page tells it as an error of the worker.
  agent.run().catch((error) => setTimeout(() => { throw error; }));
});
