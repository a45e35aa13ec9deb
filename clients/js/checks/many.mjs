// Many agents, many calls at once, and what stays of what is gone.

import assert from "node:assert/strict";
import { writeFileSync } from "node:fs";
import { setFlagsFromString } from "node:v8";
import { runInNewContext } from "node:vm";
import { Worker } from "node:worker_threads";
import { HEAVY, listOf, told } from "./trial.mjs";

setFlagsFromString("--expose-gc");
const collect = runInNewContext("gc");
const turn = () => new Promise((done) => setImmediate(done));

// Each of 64 agents of 8 origins works in a directory of its own, all at once.
async function manyAgents(trial) {
  const agents = Array.from({ length: 64 }, (_, at) => ({ origin: `https://a${at % 8}.example` }));
  const image = trial.image({ area: 256 });
  await trial.over(image, agents, async (all) => {
    await Promise.all(all.map(async ({ navigator, number }) => {
      const root = await navigator.storage.getDirectory();
      const mine = await root.getDirectoryHandle(`agent ${number}`, { create: true });
      for (let at = 0; at < 5; at += 1) {
        const stream = await (await mine.getFileHandle(`f${at}`, { create: true })).createWritable();
        await stream.write(`${number} ${at}`);
        await stream.close();
      }
      const handle = await (await mine.getFileHandle("f2")).createSyncAccessHandle();
      handle.write(Buffer.from("!"), { at: handle.getSize() });
      handle.close();
    }));
    for (const { navigator, number } of all) {
      const root = await navigator.storage.getDirectory();
      assert.equal((await listOf(root.keys())).length, 8);
      const mine = await root.getDirectoryHandle(`agent ${number}`);
      assert.equal(await (await (await mine.getFileHandle("f2")).getFile()).text(), `${number} 2!`);
    }
  });
  assert.match(trial.run("check", image), /^ok 8 72 320 320 /m);
}

async function manyAtOnce(trial) {
  await trial.overRoot(async (root) => {
    const files = await Promise.all(Array.from({ length: 300 }, (_, at) => root.getFileHandle(`f${at}`, { create: true })));
    await Promise.all(files.map(async (file, at) => {
      const stream = await file.createWritable();
      await Promise.all([stream.write(`${at}`), stream.write("."), stream.close()]);
    }));
    const texts = await Promise.all(files.map(async (file) => (await file.getFile()).text()));
    assert.deepEqual(texts, files.map((_, at) => `${at}.`));
  });
}

async function othersHaveTurns(trial) {
  await trial.overRoot(async (root) => {
    let ticks = 0;
    const timer = setInterval(() => (ticks += 1), 1);
    const until = performance.now() + 100;
    while (performance.now() < until) await root.isSameEntry(root);
    clearInterval(timer);
    assert.ok(ticks > 1, `a timer had ${ticks} turns`);
  });
}

// Names of variables are given out again once their objects are collected; what is open keeps its own.
async function namesAreReused(trial) {
  await trial.overRoot(async (root, agent) => {
    const file = await root.getFileHandle("f", { create: true });
    const handle = await (await root.getFileHandle("g", { create: true })).createSyncAccessHandle();
    for (let round = 0; round < 20; round += 1) {
      for (let at = 0; at < 100; at += 1) await told(async () => void await (at % 2 ? file.getFile() : root.getFileHandle("f")));
      collect();
      await turn();
    }
    assert.ok(agent.names < 600, `${agent.names} names for 2,000 objects`);
    handle.write(Buffer.from("still mine"));
    handle.close();
    assert.equal(await (await (await root.getFileHandle("g")).getFile()).text(), "still mine");
  });
}

// A snapshot is what it was for as long as something of it is there, whatever else goes.
async function snapshotsStay(trial) {
  await trial.overRoot(async (root) => {
    const file = await root.getFileHandle("f", { create: true });
    const kept = [];
    for (let round = 0; round < 30; round += 1) {
      const stream = await file.createWritable();
      await stream.write(`round ${round}`);
      await stream.close();
      kept.push((await file.getFile()).slice(6));
      for (let at = 0; at < 20; at += 1) await file.getFile();
      collect();
      await turn();
    }
    assert.deepEqual(await Promise.all(kept.map((it) => it.text())), kept.map((_, round) => `${round}`));
  });
}

async function refusedCallsKeepNoName(trial) {
  await trial.overRoot(async (root, agent) => {
    const before = agent.names;
    for (let at = 0; at < 100; at += 1) await told(() => root.getFileHandle("none"));
    assert.ok(agent.names <= before + 1);
  });
}

// A store in a worker thread leaves the others their turns.
async function inThread(trial) {
  const text = `import { workerData, parentPort } from "node:worker_threads";
    const { openStore } = await import(workerData.client);
    const store = await openStore(workerData.image, { program: workerData.serve });
    const handle = await (await (await store.navigator.storage.getDirectory()).getFileHandle("f", { create: true })).createSyncAccessHandle();
    for (let at = 0; at < 20; at += 1) handle.write(new Uint8Array(100), { at: 100 * at });
    handle.close();
    parentPort.postMessage((await store.close()).status);`;
  const path = trial.path("thread.mjs");
  writeFileSync(path, text);
  const image = trial.image();
  const workerData = { client: new URL("../opfs.mjs", import.meta.url).href, image, serve: trial.serve };
  const status = await new Promise((done, fail) => new Worker(path, { workerData }).once("message", done).once("error", fail));
  assert.equal(status, 0);
  assert.match(trial.run("list", image), /file \["f"\] 2000 /);
}

// What a browser's program says of `navigator` is said of an agent's.
async function asGlobal(trial) {
  await trial.over(trial.image(), undefined, async (_, store) => {
    const old = Object.getOwnPropertyDescriptor(globalThis, "navigator");
    Object.defineProperty(globalThis, "navigator", { value: store.navigator, configurable: true });
    try {
      const text = "export default await (await navigator.storage.getDirectory()).getFileHandle('f', { create: true })";
      const { default: file } = await import(`data:text/javascript,${encodeURIComponent(text)}`);
      assert.equal(file.name, "f");
    } finally {
      if (old) Object.defineProperty(globalThis, "navigator", old);
      else delete globalThis.navigator;
    }
  });
}

export const MANY_TESTS = [
  ["64 agents at once", manyAgents, HEAVY],
  ["900 calls at once", manyAtOnce, HEAVY],
  ["timers have their turns", othersHaveTurns],
  ["names of what is gone are given out again", namesAreReused],
  ["snapshots stay", snapshotsStay],
  ["refused calls keep no name", refusedCallsKeepNoName],
  ["a store in a worker thread", inThread],
  ["a store as the global navigator", asGlobal],
];
