// What README says: its example, its commands and its figures.

import assert from "node:assert/strict";
import { execFileSync } from "node:child_process";
import { readFileSync } from "node:fs";
import { dirname, join } from "node:path";
import { fileURLToPath } from "node:url";

const FOLDER = dirname(dirname(fileURLToPath(import.meta.url)));
const README = readFileSync(join(FOLDER, "README.md"), "utf8");

const blockOf = (kind) => new RegExp(`\`\`\`${kind}\\n(.*?)\`\`\``, "s").exec(README)[1];

async function example() {
  assert.equal(blockOf("js"), readFileSync(join(FOLDER, "example.mjs"), "utf8"));
}

// Each command of the block, from the repository's root, and what stands below it.
async function commands(trial) {
  const links = `ln -s "$OPFS" opfs; ln -s ${JSON.stringify(dirname(FOLDER))} clients;`;
  const folder = trial.path("readme");
  execFileSync("bash", ["-c", `mkdir ${folder}; cd ${folder}; ${links}`], { env: { ...process.env, OPFS: trial.opfs } });
  const env = { ...process.env, OPFS_SERVE: trial.serve };
  for (const [, command, wanted] of blockOf("console").matchAll(/^\$ (.*)\n((?:(?!\$ ).*\n)*)/gm)) {
    const found = execFileSync("bash", ["-c", command], { cwd: folder, env, encoding: "utf8" });
    assert.equal(found, wanted, command);
  }
}

// Files are short, and lines of documents fit a page.
async function lengths() {
  const list = execFileSync("find", [FOLDER, "-type", "f"], { encoding: "utf8" }).trim().split("\n").filter((it) => !it.includes("__pycache__"));
  for (const path of list) {
    const lines = readFileSync(path, "utf8").split("\n");
    assert.ok(lines.length <= 500, `${path} has ${lines.length} lines`);
    if (path.endsWith(".md")) lines.forEach((it, at) => assert.ok([...it].length <= 150, `${path}:${at + 1} is too long`));
  }
}

export const DOCUMENT_TESTS = [
  ["README's example is example.mjs", example],
  ["README's commands print what stands below them", commands],
  ["lengths of files and lines", lengths],
];
