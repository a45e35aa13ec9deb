// How a store begins and ends, what comes of a child that fails, tags, clocks and refusals of this store's own.

import assert from "node:assert/strict";
import { execFile } from "node:child_process";
import { existsSync, truncateSync, writeFileSync } from "node:fs";
import { promisify } from "node:util";
import { ORIGIN, told } from "./trial.mjs";

const ONE = { origin: ORIGIN };
const isThere = (pid) => existsSync(`/proc/${pid}/exe`);
const turn = (ms = 20) => new Promise((done) => setTimeout(done, ms));

async function madeFile(agent, name = "f") {
  const root = await agent.navigator.storage.getDirectory();
  return root.getFileHandle(name, { create: true });
}

async function isGone(pid) {
  for (let left = 100; left > 0 && isThere(pid); left -= 1) await turn();
  return !isThere(pid);
}

async function faultOf(call) {
  const why = await call.then(() => assert.fail("it was no fault"), (it) => it);
  assert.equal(why.name, "StoreFault", String(why));
  return why;
}

async function begins(trial) {
  const store = await trial.open(trial.image(), [ONE, ONE, { origin: "https://b.example" }]);
  assert.deepEqual(store.agents.map((it) => it.number), [1, 2, 3]);
  assert.equal(store.navigator, store.agents[0].navigator);
  assert.ok(isThere(store.pid));
  await madeFile(store.agents[1]);
  assert.deepEqual(await store.close(), { status: 0, signal: null, line: "3.1 end ok" });
  assert.equal(store.close(), store.close());
  assert.equal((await faultOf(store.navigator.storage.getDirectory())).reason, "Gone");
}

async function noStore(trial) {
  const image = trial.image();
  const short = trial.path("short");
  writeFileSync(short, "short");
  assert.match((await faultOf(trial.open(short))).message, /image refused: Short \(3\)/);
  assert.match((await faultOf(trial.open(trial.path("none")))).message, /host fault \(4\)/);
  assert.match((await faultOf(trial.open(image, []))).message, /script refused: .* \(2\)/);
  assert.match((await faultOf(trial.open(image, [{ origin: "nowhere" }]))).message, /script refused: BadOrigin 1 \(2\)/);
  assert.match((await faultOf(trial.open(image, [{ origin: ORIGIN, grants: ["more"] }]))).message, /script refused: BadShape/);
  assert.match((await faultOf(trial.open(image, [ONE], trial.path("nothing")))).message, /ENOENT/);
  assert.match((await faultOf(trial.open(image, [ONE], "/bin/true"))).message, /did not begin/);
  assert.match((await faultOf(trial.open(image, [ONE], trial.talker("wrong", ["hello", "hello"])))).message, /did not begin: hello/);
  await assert.rejects(trial.open(image, [{ origin: ORIGIN, clock: 7 }]), TypeError);
}

async function inUse(trial) {
  const image = trial.image();
  const store = await trial.open(image);
  assert.match((await faultOf(trial.open(image))).message, /host fault \(4\)/);
  await store.close();
  await (await trial.open(image)).close();
}

async function endsAll(trial) {
  const image = trial.image();
  const store = await trial.open(image, [ONE, ONE]);
  const [one, two] = store.agents;
  const stream = await (await madeFile(one, "s")).createWritable();
  await stream.write("not closed");
  const handle = await (await madeFile(two, "h")).createSyncAccessHandle();
  handle.write(Buffer.from("flushed"));
  handle.flush();
  handle.write(Buffer.from("not flushed"));
  assert.deepEqual((await one.end()).map((it) => it.split(" ").slice(1).join(" ")), ["abort ok", "end ok"]);
  assert.equal(await told(() => one.navigator.storage.getDirectory()), "StoreFault: Ended");
  assert.equal(await told(() => one.awaitTag("t")), "StoreFault: Ended");
  assert.equal(await told(() => one.end()), "StoreFault: Ended");
  assert.equal(handle.getSize(), 18);
  const { status, line } = await store.close();
  assert.deepEqual([status, / end ok$/.test(line)], [0, true]);
  const text = trial.run("list", image);
  assert.match(text, /file \["h"\] 7 /);
  assert.match(text, /file \["s"\] 0 /);
}

async function killed(trial) {
  const image = trial.image();
  const store = await trial.open(image, [ONE, ONE]);
  const handle = await (await madeFile(store.agents[0])).createSyncAccessHandle();
  handle.write(Buffer.from("stored"));
  handle.flush();
  const waits = store.agents[1].awaitTag("never");
  process.kill(store.pid, "SIGKILL");
  assert.equal((await faultOf(waits)).reason, "Gone");
  assert.throws(() => handle.getSize(), { name: "StoreFault", reason: "Gone" });
  assert.equal((await faultOf(store.navigator.storage.getDirectory())).reason, "Gone");
  const { status, signal } = await store.close();
  assert.deepEqual([status, signal], [null, "SIGKILL"]);
  assert.match(trial.run("list", image), /file \["f"\] 6 /);
}

async function killedUnseen(trial) {
  const store = await trial.open(trial.image());
  await store.navigator.storage.getDirectory();
  process.kill(store.pid, "SIGKILL");
  const why = await told(() => { for (;;) store.agents[0].ask("estimate", {}); });
  assert.equal(why, "StoreFault: Gone");
  assert.equal((await store.close()).signal, "SIGKILL");
}

async function oddAnswers(trial) {
  const odd = ["1.1 getDirectory perhaps", "1.2 getDirectory ok", "2.1 getDirectory ok", "1.1 getFile ok", "", "hello", "1.1 getDirectory", "1.1 getDirectory Unbound"];
  for (const [number, line] of odd.entries()) {
    const store = await trial.open("image", [ONE], trial.talker(`odd ${number}`, ["ready 1", line, "1.2 getDirectory ok"]));
    assert.equal((await faultOf(store.navigator.storage.getDirectory())).reason, "Odd", line);
    assert.equal((await faultOf(store.navigator.storage.getDirectory())).reason, "Odd", line);
    assert.equal((await store.close()).signal, "SIGKILL");
    assert.ok(await isGone(store.pid));
  }
}

async function oddEnd(trial) {
  const store = await trial.open("image", [ONE], trial.talker("short end", ["ready 1", "1.1 getDirectory ok", "? NotJson"]));
  await store.navigator.storage.getDirectory();
  assert.equal(await told(() => store.navigator.storage.estimate()), "StoreFault: NotJson");
  assert.deepEqual(await store.close(), { status: 0, signal: null, line: "? NotJson" });
}

async function tags(trial) {
  await trial.over(trial.image(), [ONE, ONE, ONE, { origin: "https://b.example" }], async ([one, two, three, other]) => {
    const order = [];
    const first = one.awaitTag("t").then(() => order.push(1));
    const second = two.awaitTag("t").then(() => order.push(2));
    assert.equal(await told(() => one.navigator.storage.estimate()), "StoreFault: Waiting");
    assert.equal(await told(() => one.awaitTag("u")), "StoreFault: Waiting");
    await other.post("t");
    await turn();
    assert.deepEqual(order, []);
    await three.post("t");
    await Promise.all([first, second]);
    assert.deepEqual(order, [1, 2]);
    await one.awaitTag("t");
    await madeFile(one);
    assert.deepEqual(await Promise.all(["", "a".repeat(65)].flatMap((it) => [told(() => one.post(it)), told(() => one.awaitTag(it))])), Array(4).fill("TypeError"));
    await one.post("a".repeat(64));
  });
}

async function stuck(trial) {
  await trial.over(trial.image(), [ONE, ONE], async ([one, two], store) => {
    const waits = told(() => one.awaitTag("t"));
    assert.equal(await told(() => two.awaitTag("u")), "OperationError: Stuck");
    await two.post("t");
    assert.equal(await waits, undefined);
    const later = told(() => one.awaitTag("v"));
    await two.end();
    assert.equal(await later, "OperationError: Stuck");
    assert.equal(await told(() => one.awaitTag("w")), "OperationError: Stuck");
    assert.equal((await store.close()).status, 0);
  });
}

async function stuckAtTheEnd(trial) {
  const store = await trial.open(trial.image(), [ONE, ONE]);
  const waits = told(() => store.agents[0].awaitTag("t"));
  await store.close();
  assert.equal(await waits, "OperationError: Stuck");
}

async function clocks(trial) {
  const agents = [{ ...ONE, clock: () => 1000 }, { ...ONE, clock: null }, ONE];
  await trial.over(trial.image(), agents, async ([fixed, told, real]) => {
    const timeOf = async (file) => (await file.getFile()).lastModified;
    assert.equal(await timeOf(await madeFile(fixed, "a")), 1000);
    const file = await madeFile(told, "b");
    assert.equal(await timeOf(file), 0);
    await told.moment(77);
    const handle = await file.createSyncAccessHandle();
    handle.write(Buffer.from("a"));
    handle.close();
    assert.equal(await timeOf(file), 77);
    const before = Date.now();
    const stream = await (await madeFile(real, "c")).createWritable();
    await stream.close();
    const time = await timeOf(await madeFile(real, "c"));
    assert.ok(time >= before && time <= Date.now());
  });
}

async function ownRefusals(trial) {
  const image = trial.image({ blocks: 8, area: 1, quota: 4 });
  await trial.overRoot(async (root) => {
    const file = await root.getFileHandle("f", { create: true });
    const stream = await file.createWritable();
    assert.equal(await told(() => stream.write(new Uint8Array(5 * 4096))), "QuotaExceededError: QuotaExceededError 0 5 4");
    assert.equal(await told(() => root.getFileHandle("a".repeat(256), { create: true })), "OperationError: NameLimit");
    const handle = await file.createSyncAccessHandle();
    assert.throws(() => handle.write(new Uint8Array(5 * 4096)), { name: "QuotaExceededError", code: 22 });
    handle.close();
    const full = await told(async () => { for (let at = 0; ; at += 1) await root.getFileHandle(`file ${at}`, { create: true }); });
    assert.match(full, /^QuotaExceededError: MetaFull \d+ \d+ 4096$/);
  }, image);
}

async function evictions(trial) {
  const image = trial.image({ blocks: 4, area: 4, quota: 3 });
  await trial.over(image, [ONE, { origin: "https://b.example" }], async ([one, two], store) => {
    const gone = [];
    store.onevict = (unit) => gone.push(unit);
    const write = async (agent, size) => {
      const stream = await (await madeFile(agent)).createWritable();
      await stream.write(Buffer.alloc(size, 7));
      return stream;
    };
    await (await write(one, 3 * 4096)).close();
    const stream = await write(two, 2 * 4096);
    assert.deepEqual(gone, [ORIGIN]);
    assert.equal(await told(() => write(one, 3 * 4096)), "QuotaExceededError: DataFull 2 3 4");
    await stream.close();
  });
}

async function diskFault(trial) {
  const image = trial.image();
  await trial.overRoot(async (root) => {
    const stream = await (await root.getFileHandle("f", { create: true })).createWritable();
    await stream.write(new Uint8Array(9000).map((_, at) => at));
    await stream.close();
  }, image);
  const store = await trial.open(image);
  const file = await (await store.navigator.storage.getDirectory()).getFileHandle("f");
  truncateSync(image, 4096);
  assert.equal(await told(async () => (await file.getFile()).text()), "UnknownError: DiskFault");
  await store.close();
}

async function opaque(trial) {
  await trial.over(trial.image(), [{ origin: "data:text/html,a" }], async ([{ navigator: { storage, storageBuckets } }]) => {
    const all = await Promise.all([() => storage.getDirectory(), () => storage.persist(), () => storage.persisted(), () => storage.estimate()].map(told));
    assert.deepEqual(all, ["SecurityError: SecurityError", ...Array(3).fill("TypeError: TypeError")]);
    assert.match(await told(() => storageBuckets.open("a")), /^TypeError/);
  });
}

// A program that ends without a word, or is killed: its child ends too, and has stored what was closed.
async function leftAlone(trial) {
  for (const end of ["", "process.exit(7);", "process.kill(process.pid, 'SIGKILL');", "throw new Error('mine');", "setTimeout(() => {}, 50);"]) {
    const image = trial.image();
    const program = trial.path("left.mjs");
    writeFileSync(program, `import { openStore } from ${JSON.stringify(new URL("../opfs.mjs", import.meta.url).href)};
      const store = await openStore(${JSON.stringify(image)}, { program: ${JSON.stringify(trial.serve)} });
      const stream = await (await (await store.navigator.storage.getDirectory()).getFileHandle("f", { create: true })).createWritable();
      await stream.write("closed");
      await stream.close();
      console.log(store.pid);
      ${end}`);
    const { stdout } = await promisify(execFile)(process.execPath, [program]).catch((it) => it);
    assert.ok(await isGone(stdout.trim()), `${end} leaves its child`);
    assert.match(trial.run("list", image), /file \["f"\] 6 /);
  }
}

export const CONVERSATION_TESTS = [
  ["a store begins and ends", begins],
  ["what is no store, and why", noStore],
  ["an image has one store at a time", inUse],
  ["what ends with an agent", endsAll],
  ["a child that is killed while an agent awaits", killed],
  ["a child that is killed under a call", killedUnseen],
  ["odd answers", oddAnswers],
  ["a line that is not heard", oddEnd],
  ["tags", tags],
  ["stuck agents", stuck],
  ["an agent that awaits at the end", stuckAtTheEnd],
  ["clocks", clocks],
  ["refusals of this store alone", ownRefusals],
  ["evictions, and a full store", evictions],
  ["a disk that fails", diskFault],
  ["an opaque origin", opaque],
  ["programs that leave their store alone", leftAlone],
];
