// The table of behaviours, in Node over the program and in Chromium: what comes, and that it differs where the repository's README says so alone.

import { execFile } from "node:child_process";
import { readFileSync } from "node:fs";
import { dirname, join } from "node:path";
import { fileURLToPath } from "node:url";
import { promisify } from "node:util";
import { BEHAVIOURS, Player, playAll } from "../behaviours.mjs";
import { ORIGIN } from "./trial.mjs";

const HERE = dirname(fileURLToPath(import.meta.url));
const README = join(HERE, "../../../README.md");
const TABLE = "## Where this store answers otherwise";
const NONE = 3;

// The cases of README's table of differences: the first cell of a row may have several, with `;` between them.
function casesOfReadme() {
  const [, rest] = readFileSync(README, "utf8").split(TABLE);
  const [table] = rest.split("\n## ");
  return Array.from(table.matchAll(/^\| (.+?) \|/gm), ([, cell]) => cell.split("; ")).flat();
}

// Why a value is not what it has to be; undefined where it is.
function whyOdd(wanted, value) {
  const [one, other] = [wanted, value].map((it) => JSON.stringify(it));
  return one === other ? undefined : `it is ${other}, not ${one}`;
}

async function inNode(trial, tell) {
  const agent = { origin: ORIGIN, grants: ["persistent-storage"] };
  const values = [];
  await trial.over(trial.image({ blocks: 4096, quota: 4096 }), [agent, agent], async ([a, b]) => {
    const players = { a: new Player(a.navigator), b: new Player(b.navigator), page: new Player(a.navigator) };
    await playAll(players, (number, value) => {
      const { what, wants, here = wants } = BEHAVIOURS[number];
      values[number] = value;
      tell(`in Node: ${what}`, whyOdd(here, value));
    });
  });
  trial.valuesInNode = values;
}

// A difference has its row in README, and what has none of its own is the same.
async function rows(trial, tell) {
  const there = casesOfReadme();
  for (const { what, row, wants, here = wants, there: other = wants } of BEHAVIOURS) {
    const isOdd = JSON.stringify(here) !== JSON.stringify(other);
    if (row === undefined && !isOdd) continue;
    const why = !isOdd ? "nothing differs" : row === undefined ? "it names no row" : there.includes(row) ? undefined : `README's table has no case "${row}"`;
    tell(`row of: ${what}`, why);
  }
}

async function inChromium(trial, tell) {
  if (process.env.NO_BROWSER) return console.log("skipped Chromium: not asked for");
  let answer;
  try {
    answer = await promisify(execFile)("python3", [join(HERE, "chromium.py"), "playBehaviours()"], { maxBuffer: 2 ** 26 });
  } catch (why) {
    const text = (why.stderr || why.message).trim();
    return why.code === NONE || why.code === "ENOENT" ? console.log(`skipped Chromium: ${text}`) : tell("Chromium", text);
  }
  const [version, values] = answer.stdout.split("\n");
  for (const [number, value] of JSON.parse(values).entries()) {
    const { what, wants, there = wants, row } = BEHAVIOURS[number];
    const isCompared = row === undefined && trial.valuesInNode !== undefined;
    const why = whyOdd(there, value) ?? (isCompared ? whyOdd(trial.valuesInNode[number], value) : undefined);
    tell(`in Chromium ${version}: ${what}`, why);
  }
}

export const BEHAVIOUR_TESTS = [["behaviours in Node", inNode], ["rows of behaviours", rows], ["behaviours in Chromium", inChromium]];
