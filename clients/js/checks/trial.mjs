// What tests share: the programs, a folder of their own, images in it, and stores over them.

import { execFileSync } from "node:child_process";
import { createHash, randomBytes } from "node:crypto";
import { mkdtempSync, rmSync, writeFileSync } from "node:fs";
import { tmpdir } from "node:os";
import { dirname, join, resolve } from "node:path";
import { openStore } from "../opfs.mjs";

export const ORIGIN = "https://a.example";

// Marks a test that a program with checks, which takes a thousand times as long, is not asked to do.
export const HEAVY = "heavy";
const SLOW = 20;

export const digestOf = (bytes) => createHash("sha256").update(bytes).digest("hex");

// The name and the reply of what a call throws; what it gives otherwise.
export async function told(call) {
  try {
    return await call();
  } catch (why) {
    return [why.name, why.reply ?? why.reason ?? ""].filter(Boolean).join(": ");
  }
}

export async function listOf(iterator) {
  const all = [];
  for await (const it of iterator) all.push(it);
  return all;
}

export class Trial {
  #images = 0;

  constructor(program) {
    this.opfs = resolve(program);
    this.serve = process.env.OPFS_SERVE ?? join(dirname(this.opfs), "opfs_serve");
    this.folder = mkdtempSync(join(tmpdir(), "opfs-check-"));
  }

  end() {
    rmSync(this.folder, { recursive: true, force: true });
  }

  path(name) {
    return join(this.folder, name);
  }

  // A new image.
  image({ blocks = 1024, area = 64, quota = 1024 } = {}) {
    const path = this.path(`image ${(this.#images += 1)}`);
    this.run("format", path, blocks, area, quota);
    return path;
  }

  // What the program prints.
  run(...words) {
    return execFileSync(this.opfs, words.map(String), { encoding: "utf8", maxBuffer: 2 ** 28 });
  }

  // A program that says these lines to whatever it hears, and then waits for the end of it.
  talker(name, lines) {
    const path = this.path(name);
    writeFileSync(path, `#!/bin/sh\n${lines.map((it) => `read -r line\necho '${it}'\n`).join("")}exec cat > /dev/null\n`, { mode: 0o755 });
    return path;
  }

  open(image, agents = [{ origin: ORIGIN }], program = this.serve) {
    return openStore(image, { agents, program });
  }

  // What calls on a store of these agents give; it is closed then.
  async over(image, agents, calls) {
    const store = await this.open(image, agents);
    try {
      return await calls(store.agents, store);
    } finally {
      await store.close();
    }
  }

  // Whether the program takes long for a page.
  async isSlow() {
    return this.overRoot(async (root) => {
      const handle = await (await root.getFileHandle("f", { create: true })).createSyncAccessHandle();
      const from = performance.now();
      for (let at = 0; at < 3; at += 1) handle.write(randomBytes(4096));
      handle.close();
      return performance.now() - from > 3 * SLOW;
    });
  }

  // What calls with the root of one agent give.
  async overRoot(calls, image = this.image()) {
    return this.over(image, undefined, async ([agent], store) => calls(await agent.navigator.storage.getDirectory(), agent, store));
  }
}
