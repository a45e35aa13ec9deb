// Scripts of this repository, played by this client's calls as clients/browser plays them by a browser's: what comes is what `opfs` prints.

import assert from "node:assert/strict";
import { readFileSync, readdirSync, rmSync, writeFileSync } from "node:fs";
import { execFileSync } from "node:child_process";
import { dirname, join } from "node:path";
import { fileURLToPath } from "node:url";
import { HEAVY, ORIGIN } from "./trial.mjs";

const ROOT = join(dirname(fileURLToPath(import.meta.url)), "../../..");
const BROWSER = join(ROOT, "clients/browser");
const LIKE_TRY = { blocks: 16_384, area: 256, quota: 8192 };

// Scripts that use a stream which is closed or was refused something, or an iterator that was refused: as README says, these answer as a browser's.
const OTHER = ["ended_stream", "refused_write", "removed_while_listed"];

const asUrl = (text) => `data:text/javascript;charset=utf-8,${encodeURIComponent(text)}`;
const textAt = (name) => readFileSync(join(BROWSER, name), "utf8");

// The calls that stand for each word, by the module of clients/browser.
const { KINDS, WORDS } = await import(asUrl(textAt("words.js").replace("./script.js", asUrl(textAt("script.js")))));

// An agent of a script, for that module.
class Player {
  #agent;
  #variables = new Map();
  clock;

  constructor(agent) {
    this.#agent = agent;
    this.clock = { set: (ms) => agent.moment(ms), momentOf: (time) => time };
  }

  get(name) {
    return this.#variables.get(name);
  }

  bind(name, kind, it, place) {
    this.#variables.set(name, { kind, it, place });
  }

  open(name, kind, it, place) {
    this.bind(name, kind, it, place);
  }

  shut() {}

  async storage(bucket) {
    const { storage, storageBuckets } = this.#agent.navigator;
    return bucket === undefined ? storage : storageBuckets.open(bucket);
  }

  // The directory of a bucket, of an opaque origin too: there the store refuses it before its bucket is looked at.
  async root(bucket) {
    const { storage } = this.#agent.navigator;
    return bucket === undefined ? storage.getDirectory() : (await this.storage(bucket)).getDirectory();
  }

  async post(tag) {
    return this.#agent.post(tag);
  }

  // What a browser's page is asked.
  async ask({ ask, tag, bucket }) {
    try {
      if (ask === "await") return { flag: await this.#agent.awaitTag(tag) };
      return { flag: await (await this.storage(bucket)).persist() };
    } catch (refusal) {
      return { refusal };
    }
  }

  async estimate() {
    const { usage, quota } = await this.#agent.navigator.storage.estimate();
    return `${usage} ${quota}`;
  }

  #isBound(step) {
    return Object.entries(KINDS).every(([member, kinds]) => !Object.hasOwn(step, member) || kinds.includes(this.get(step[member])?.kind));
  }

  async answer(step) {
    if (!this.#isBound(step)) return "Unbound";
    const calls = { ...WORDS, estimate: () => this.estimate(), post: (_, { tag }) => this.post(tag) };
    try {
      const text = await calls[step.do](this, step);
      return text === undefined ? "ok" : `ok ${text}`;
    } catch (why) {
      if (why instanceof Error && why.name === "StoreFault") throw why;
      return why.reply ?? why.name;
    }
  }

  async run(steps) {
    const lines = [];
    for (const step of steps) lines.push(`${step.do} ${await this.answer(step)}`);
    return [...lines, ...(await this.#agent.end()).map((it) => it.slice(it.indexOf(" ") + 1))];
  }
}

// The lines of each agent, played at the same time.
async function played(trial, agents) {
  const list = agents.map(({ origin, grants }) => ({ origin, grants, clock: null }));
  const image = trial.image(LIKE_TRY);
  try {
    return await trial.over(image, list, (all) => Promise.all(all.map((agent, at) => new Player(agent).run(agents[at].steps))));
  } finally {
    rmSync(image);
  }
}

// The lines of each agent in a transcript, without their numbers.
function linesOf(transcript, count) {
  const all = Array.from({ length: count }, () => []);
  for (const [, agent, line] of transcript.matchAll(/^(\d+)\.\d+ (.*)$/gm)) all[agent - 1].push(line);
  return all;
}

async function compare(trial, script, transcript) {
  const { agents } = JSON.parse(script);
  assert.deepEqual(await played(trial, agents), linesOf(transcript, agents.length));
}

function scriptTests(folder) {
  const names = readdirSync(folder).filter((it) => it.endsWith(".json")).map((it) => it.slice(0, -5)).sort();
  return names.filter((it) => !OTHER.includes(it) && !it.startsWith("sharing_")).map((name) => [`script ${name}`, (trial) =>
    compare(trial, readFileSync(join(folder, `${name}.json`), "utf8"), readFileSync(join(folder, `${name}.txt`), "utf8"))]);
}

// A drawn script of one agent over a few names, of all calls on files.
function drawnScript(seed) {
  let drawn = seed;
  const draw = (below) => {
    drawn = (drawn * 1664525 + 1013904223) % 4294967296;
    return Math.floor((drawn / 4294967296) * below);
  };
  const steps = [{ do: "getDirectory", as: "d" }];
  const data = () => [{ fill: draw(256), count: draw(300) }, `text ${draw(99)}`, { hex: "00ff7e" }][draw(3)];
  for (let left = 25; left > 0; left -= 1) {
    const dir = ["d", "e"][draw(2)];
    steps.push({ do: "moment", ms: draw(9999) }, { do: "getDirectoryHandle", dir: "d", name: "e", create: draw(3) > 0, as: "e" });
    steps.push({ do: "getFileHandle", dir, name: "fgh"[draw(3)], create: draw(4) > 0, as: "f" });
    steps.push(...[
      [{ do: "createWritable", file: "f", keepExistingData: draw(2) > 0, as: "w" }, { do: "write", stream: "w", data: data(), position: draw(200) },
        { do: "truncate", stream: "w", size: draw(300) }, { do: "write", stream: "w", data: data() }, { do: draw(3) ? "close" : "abort", stream: "w" }],
      [{ do: "createSyncAccessHandle", file: "f", as: "h" }, { do: "syncWrite", sync: "h", data: data(), at: draw(300) },
        { do: "syncRead", sync: "h", len: draw(99) }, { do: "syncTruncate", sync: "h", size: draw(300) }, { do: "syncGetSize", sync: "h" },
        { do: "syncClose", sync: "h" }],
      [{ do: "getFile", file: "f", as: "s" }, { do: "slice", snapshot: "s", at: draw(100), len: draw(200) }, { do: "resolve", dir: "d", entry: "f" }],
      [{ do: "removeEntry", dir: "d", name: "efgh"[draw(4)], recursive: draw(2) > 0 }, { do: "values", dir: "d", as: "i" },
        { do: "next", iterator: "i", as: "c" }, { do: "next", iterator: "i", as: "c" }],
    ][draw(4)]);
  }
  return { agents: [{ origin: ORIGIN, steps: withOwnNames(steps) }] };
}

// Gives each stream and access handle a name of its own: where its making is refused, its calls are on nothing, and not on an older one.
function withOwnNames(steps) {
  let count = 0;
  return steps.map((step) => {
    if (step.as === "w" || step.as === "h") count += 1;
    const named = { ...step };
    for (const member of ["as", "stream", "sync"]) if (["w", "h"].includes(step[member])) named[member] = `${step[member]}${count}`;
    return named;
  });
}

async function drawn(trial, seed) {
  const script = JSON.stringify(drawnScript(seed));
  const path = trial.path("drawn.json");
  writeFileSync(path, script);
  await compare(trial, script, execFileSync(trial.opfs, ["try"], { input: script, encoding: "utf8" }));
}

export const SCRIPT_TESTS = [
  ...scriptTests(join(ROOT, "examples")),
  ...scriptTests(join(BROWSER, "differences")),
  ...[1, 2, 3, 4].map((seed) => [`drawn script ${seed}`, (trial) => drawn(trial, seed), HEAVY]),
];
