// What `measure` does: rounds here and rounds in Chromium, in one run.

import { execFile } from "node:child_process";
import { dirname, join } from "node:path";
import { fileURLToPath } from "node:url";
import { promisify } from "node:util";
import { flushesPerSecond } from "./flushes.mjs";
import { ORIGIN, Trial } from "./trial.mjs";

const HERE = dirname(fileURLToPath(import.meta.url));
const PAGES = 1024;

function tell(where, found) {
  const sorted = [...found].sort((one, other) => one - other).map((it) => Math.round(it).toLocaleString("en"));
  console.log(`${where}: ${sorted[sorted.length >> 1]} writes and flushes of 4 KiB a second (median of ${found.length}, ${sorted[0]} .. ${sorted.at(-1)})`);
}

async function here(trial, options) {
  const agent = { origin: ORIGIN };
  return trial.over(trial.image({ blocks: 4096, area: 256, quota: 4096 }), [agent], ([{ navigator }]) => flushesPerSecond(navigator, options));
}

async function inChromium(options) {
  const { stdout } = await promisify(execFile)("python3", [join(HERE, "chromium.py"), `measureFlushes(${JSON.stringify(options)})`]);
  const [version, values] = stdout.split("\n");
  return { version, found: JSON.parse(values) };
}

export async function main([program, times = "2000", rounds = "5"]) {
  if (!program) {
    console.error("usage: clients/js/measure PROGRAM [TIMES [ROUNDS]]");
    process.exitCode = 1;
    return;
  }
  const options = { pages: PAGES, times: Number(times), rounds: Number(rounds) };
  const trial = new Trial(program);
  try {
    tell("Node over opfs_serve", await here(trial, options));
    const { version, found } = await inChromium(options);
    tell(`Chromium ${version}`, found);
  } catch (why) {
    console.log(`measure: ${why.stderr?.trim() || why.message}`);
    process.exitCode = 1;
  } finally {
    trial.end();
  }
}
