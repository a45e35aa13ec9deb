// What `check` does: each test in its turn, and a line for each.

import { existsSync } from "node:fs";
import { BEHAVIOUR_TESTS } from "./behaviours.mjs";
import { CONTENT_TESTS } from "./contents.mjs";
import { CONVERSATION_TESTS } from "./conversation.mjs";
import { DOCUMENT_TESTS } from "./documents.mjs";
import { MANY_TESTS } from "./many.mjs";
import { SCRIPT_TESTS } from "./scripts.mjs";
import { HEAVY, Trial } from "./trial.mjs";

const LONGEST = 300;

const oneLine = (text) => text.replace(/\s+/g, " ").trim().slice(0, LONGEST);

export function told(what, why) {
  console.log(why ? `failed ${what}: ${oneLine(why)}` : `passed ${what}`);
}

async function tryOne([what, calls], trial) {
  try {
    await calls(trial);
    told(what);
  } catch (why) {
    told(what, why?.message || String(why) || "it failed");
  }
}

export async function main(program) {
  if (!program) {
    console.error("usage: clients/js/check PROGRAM");
    process.exitCode = 1;
    return;
  }
  const trial = new Trial(program);
  try {
    if (!existsSync(trial.serve)) return console.log(`skipped all: there is no opfs_serve at ${trial.serve}`);
    const isSlow = await trial.isSlow();
    for (const test of [...CONVERSATION_TESTS, ...CONTENT_TESTS, ...MANY_TESTS, ...SCRIPT_TESTS, ...DOCUMENT_TESTS]) {
      if (isSlow && test[2] === HEAVY) console.log(`skipped ${test[0]}: this program is slow, as one with checks is`);
      else await tryOne(test, trial);
    }
    for (const [what, calls] of BEHAVIOUR_TESTS) await calls(trial, told).catch((why) => told(what, why?.message || String(why)));
  } finally {
    trial.end();
  }
}
