// Bytes of all kinds and sizes, told by `opfs check`, which reads the image without this client.

import assert from "node:assert/strict";
import { randomBytes } from "node:crypto";
import { HEAVY, digestOf, listOf, told } from "./trial.mjs";

const MIB = 1_048_576;

// What `opfs check` says of each file: its digest.
function digests(trial, image) {
  const lines = trial.run("check", image).matchAll(/^file (\w+) (.*) (\[.*\])$/gm);
  return Object.fromEntries(Array.from(lines, ([, digest, , path]) => [JSON.parse(path).join("/"), digest]));
}

const CONTENTS = {
  "no bytes": Buffer.alloc(0),
  "one byte": Buffer.of(0),
  "all bytes": Buffer.from(Array.from({ length: 256 }, (_, at) => at)),
  "a text": Buffer.from("a text \u00e4\u65e5\ud83e\udd86\r\n\"quoted\" \\ end"),
  "signs below a blank": Buffer.from(Array.from({ length: 4096 }, (_, at) => at % 32)),
  "a byte order mark": Buffer.from("\ufefftext"),
  "one byte so often": Buffer.alloc(9000, 255),
  "almost": Buffer.concat([Buffer.alloc(9000, 7), Buffer.of(8)]),
  "drawn": randomBytes(70_001),
  "a page": randomBytes(4096),
  "cut at 64 KiB": randomBytes(65_536),
  "one more": randomBytes(65_537),
  "separators": Buffer.from("\u2028\u2029\u0000\u007f"),
};

async function forms(trial) {
  const image = trial.image();
  await trial.overRoot(async (root) => {
    for (const [name, bytes] of Object.entries(CONTENTS)) {
      const stream = await (await root.getFileHandle(`stream ${name}`, { create: true })).createWritable();
      await stream.write(bytes);
      await stream.close();
      const handle = await (await root.getFileHandle(`handle ${name}`, { create: true })).createSyncAccessHandle();
      assert.equal(handle.write(bytes), bytes.length);
      const back = Buffer.alloc(bytes.length + 10);
      assert.equal(handle.read(back, { at: 0 }), bytes.length);
      assert.ok(back.subarray(0, bytes.length).equals(bytes), name);
      handle.close();
      const file = await (await root.getFileHandle(`stream ${name}`)).getFile();
      assert.ok(Buffer.from(await file.arrayBuffer()).equals(bytes), name);
    }
  }, image);
  const found = digests(trial, image);
  for (const [name, bytes] of Object.entries(CONTENTS)) {
    assert.equal(found[`stream ${name}`], digestOf(bytes), name);
    assert.equal(found[`handle ${name}`], digestOf(bytes), name);
  }
}

async function large(trial) {
  const image = trial.image({ blocks: 16_384, area: 128, quota: 16_384 });
  const bytes = Buffer.concat([randomBytes(MIB), Buffer.alloc(15 * MIB, 3), randomBytes(MIB + 5)]);
  await trial.overRoot(async (root) => {
    const stream = await (await root.getFileHandle("s", { create: true })).createWritable();
    await stream.write({ type: "write", data: bytes, position: 1 });
    await stream.write("end");
    await stream.close();
    const handle = await (await root.getFileHandle("h", { create: true })).createSyncAccessHandle();
    assert.equal(handle.write(bytes), bytes.length);
    const back = Buffer.alloc(bytes.length);
    assert.equal(handle.read(back, { at: 0 }), bytes.length);
    assert.ok(back.equals(bytes));
    handle.close();
  }, image);
  const found = digests(trial, image);
  assert.equal(found.s, digestOf(Buffer.concat([Buffer.of(0), bytes, Buffer.from("end")])));
  assert.equal(found.h, digestOf(bytes));
}

// A write of several parts, of which a later one has no room: what went in is told.
async function partly(trial) {
  const image = trial.image({ blocks: 8192, area: 64, quota: 4096 });
  await trial.overRoot(async (root) => {
    const file = await root.getFileHandle("f", { create: true });
    const handle = await file.createSyncAccessHandle();
    assert.equal(handle.write(Buffer.alloc(17 * MIB, 5)), 16 * MIB);
    assert.equal(handle.getSize(), 16 * MIB);
    assert.equal(await told(() => handle.write(Buffer.alloc(9))), "QuotaExceededError: QuotaExceededError 4096 1 4096");
    handle.close();
    const stream = await file.createWritable();
    assert.match(await told(() => stream.write(Buffer.alloc(17 * MIB, 5))), /^QuotaExceededError/);
    assert.equal(await told(() => stream.close()), "TypeError");
    assert.equal((await file.getFile()).size, 16 * MIB);
    await (await file.createWritable()).abort();
  }, image);
}

async function names(trial) {
  const image = trial.image();
  const wanted = ["\u00e4\u65e5", "a\"b\\c", "a\nb\tc\u0001", "\ud83e\udd86", " ", "\u2028", "\u007f"].sort();
  await trial.overRoot(async (root) => {
    for (const name of wanted) await root.getFileHandle(name, { create: true });
    assert.deepEqual((await listOf(root.keys())).sort(), wanted);
    for (const [name, file] of await listOf(root)) assert.deepEqual([await root.resolve(file), file.name], [[name], name]);
  }, image);
  const found = Array.from(trial.run("list", image).matchAll(/^file (\[[^\n]*\]) 0 /gm), ([, path]) => JSON.parse(path)[0]);
  assert.deepEqual(found.sort(), wanted);
}

async function buckets(trial) {
  const image = trial.image();
  await trial.over(image, [{ origin: "https://a.example", grants: ["persistent-storage"] }, { origin: "https://a.example" }], async ([one, two]) => {
    const bucket = await one.navigator.storageBuckets.open("drafts");
    await (await bucket.getDirectory()).getFileHandle("inside", { create: true });
    await (await one.navigator.storage.getDirectory()).getFileHandle("outside", { create: true });
    assert.deepEqual([await bucket.persisted(), await two.navigator.storage.persist(), await bucket.persist(), await bucket.persisted()], [false, false, true, true]);
    assert.equal(await one.navigator.storage.persisted(), false);
    const same = await (await two.navigator.storageBuckets.open("drafts")).getDirectory();
    assert.deepEqual(await listOf(same.keys()), ["inside"]);
  });
  const text = trial.run("list", image);
  assert.match(text, /^key https:\/\/a\.example best-effort 0\n.*\nfile \["outside"\]/m);
  assert.match(text, /^key https:\/\/a\.example#drafts persistent 0\n.*\nfile \["inside"\]/m);
}

// Handles of one agent are of no use to another.
async function foreign(trial) {
  await trial.over(trial.image(), [{ origin: "https://a.example" }, { origin: "https://a.example" }], async ([one, two]) => {
    const [mine, other] = [await one.navigator.storage.getDirectory(), await two.navigator.storage.getDirectory()];
    assert.equal(await told(() => mine.isSameEntry(other)), "TypeError");
    assert.equal(await told(() => mine.resolve(other)), "TypeError");
    assert.equal(await told(() => mine.getFileHandle.call({}, "f")), "TypeError");
    assert.throws(() => mine.keys.call(null), TypeError);
  });
}

export const CONTENT_TESTS = [
  ["bytes of many kinds, by their digests", forms, HEAVY],
  ["a write and a read of 17 MiB", large, HEAVY],
  ["a large write that has no room for its end", partly, HEAVY],
  ["odd names, in the image too", names],
  ["buckets, in the image too", buckets],
  ["handles of another agent", foreign],
];
