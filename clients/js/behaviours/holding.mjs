// Locks, access handles, and what an origin has.

import {
  decode, encode, filled, freed, handled, isPattern, listOf, made, patterned, pause, readText, says, sizeOf, textIn, told, toldAll,
} from "./table.mjs";

// Locks

says("a stream shares with streams alone", ["ok", "NoModificationAllowedError", "ok", "ok"], async ({ dir }) => {
  const file = await made(dir);
  const stream = await file.createWritable();
  const all = await toldAll(async () => void await (await file.createWritable()).abort(), () => file.createSyncAccessHandle(), async () => void await file.getFile());
  await stream.close();
  return [...all, await freed(async () => void (await file.createSyncAccessHandle()).close())];
});
says("an access handle shares with nobody", ["NoModificationAllowedError", "NoModificationAllowedError", "ok", "ok"], async ({ dir }) => {
  const file = await made(dir);
  const handle = await file.createSyncAccessHandle();
  const all = await toldAll(() => file.createWritable(), () => file.createSyncAccessHandle(), async () => void await file.getFile());
  handle.close();
  return [...all, await told(async () => void await (await file.createWritable()).abort())];
});
says("read-only handles share with each other", ["ok", "NoModificationAllowedError", "NoModificationAllowedError", "NoModificationAllowedError"], async ({ dir }) => {
  const file = await made(dir);
  const [one, two] = [await file.createSyncAccessHandle({ mode: "read-only" }), await file.createSyncAccessHandle({ mode: "read-only" })];
  one.close();
  const all = await toldAll(() => two.close(), async () => {
    const third = await file.createSyncAccessHandle({ mode: "read-only" });
    const refusal = await told(() => file.createSyncAccessHandle());
    const more = [refusal, await told(() => file.createWritable()), await told(() => dir.removeEntry("f"))];
    third.close();
    return more;
  });
  return all.flat();
});
says("a mode is one of its words", ["TypeError", "TypeError", "ok"], async ({ dir }) => {
  const file = await made(dir);
  return toldAll(() => file.createSyncAccessHandle({ mode: "write" }), () => file.createSyncAccessHandle({ mode: null }),
    async () => void (await file.createSyncAccessHandle({ mode: "readwrite" })).close());
});
says("locks end with close and abort", ["ok", "ok", "ok"], async ({ dir }) => {
  const file = await made(dir);
  const take = async () => void (await file.createSyncAccessHandle()).close();
  await (await file.createWritable()).close();
  const first = await told(take);
  await (await file.createWritable()).abort();
  return [first, await freed(take), await told(take)];
});
says("other agents see what is closed", ["ok", "", "one", "one"], [
  ["a", async ({ dir, mine }) => {
    mine.stream = await (await made(dir)).createWritable();
    await mine.stream.write("one");
    return "ok";
  }],
  ["b", async ({ dir }) => textIn(await dir.getFileHandle("f"))],
  ["a", async ({ dir, mine }) => (await mine.stream.close()) ?? textIn(await dir.getFileHandle("f"))],
  ["b", async ({ dir }) => textIn(await dir.getFileHandle("f"))],
]);
says("other agents' locks refuse", ["ok", Array(4).fill("NoModificationAllowedError"), "ok", "ok"], [
  ["a", async ({ dir, mine }) => void (mine.handle = await (await made(dir)).createSyncAccessHandle()) ?? "ok"],
  ["b", async ({ dir, root }) => {
    const file = await dir.getFileHandle("f");
    return toldAll(() => file.createWritable(), () => file.createSyncAccessHandle(), () => dir.removeEntry("f"), () => root.removeEntry(dir.name, { recursive: true }));
  }],
  ["a", ({ mine }) => mine.handle.close() ?? "ok"],
  ["b", ({ dir }) => told(() => dir.removeEntry("f"))],
]);
says("of two agents' streams the last close stays", ["ok", "ok", "ok", "b"], [
  ["a", async ({ dir, mine }) => (await (mine.stream = await (await made(dir)).createWritable()).write("a")) ?? "ok"],
  ["b", async ({ dir, mine }) => (await (mine.stream = await (await made(dir)).createWritable()).write("b")) ?? "ok"],
  ["a", async ({ mine }) => (await mine.stream.close()) ?? "ok"],
  ["b", async ({ dir, mine }) => (await mine.stream.close()) ?? textIn(await made(dir))],
]);
says("other agents read what an access handle wrote", ["ok", "written", "ok"], [
  ["a", async ({ dir, mine }) => {
    mine.handle = await (await made(dir)).createSyncAccessHandle();
    mine.handle.write(encode("written"));
    return "ok";
  }],
  ["b", async ({ dir }) => textIn(await made(dir))],
  ["a", ({ mine }) => mine.handle.close() ?? "ok"],
]);
says("a file that another agent removed is gone", ["ok", "ok", "NotFoundError"], [
  ["a", async ({ dir, mine }) => void (mine.file = await made(dir)) ?? "ok"],
  ["b", ({ dir }) => told(() => dir.removeEntry("f"))],
  ["a", ({ mine }) => told(() => mine.file.getFile())],
]);

// Access handles

says("reads and writes go on at the cursor", [3, 2, "abcde", "", 5, "abcde"], ({ dir }) => handled(dir, "", (it) =>
  [it.write(encode("abc")), it.write(encode("de")), readText(it, 9, { at: 0 }), readText(it, 9), it.getSize()]));
says("a place sets the cursor", ["cd", "ef", 1, "de", "abXdef"], ({ dir }) => handled(dir, "abcdef", (it) =>
  [readText(it, 2, { at: 2 }), readText(it, 2), it.write(encode("X"), { at: 2 }), readText(it, 2)]));
says("a read is as long as there is something", ["ef", "", "ab", "abcdef"], ({ dir }) => handled(dir, "abcdef", (it) =>
  [readText(it, 9, { at: 4 }), readText(it, 9), readText(it, 2, { at: 0 })]));
says("a gap is filled with zeros by a handle too", [1, 5, "ab\0\0c"], ({ dir }) => handled(dir, "ab", (it) => [it.write(encode("c"), { at: 4 }), it.getSize()]));
says("truncate by a handle cuts and fills", [2, "ab", 4, "ab\0\0", "ab\0\0"], ({ dir }) => handled(dir, "abcdef", (it) => {
  it.truncate(2);
  const first = [it.getSize(), readText(it, 9, { at: 0 })];
  it.truncate(4);
  return [...first, it.getSize(), readText(it, 9, { at: 0 })];
}));
says("truncate moves the cursor back to the end", [1, "abX"], ({ dir }) => handled(dir, "abcdef", (it) => {
  readText(it, 6, { at: 0 });
  it.truncate(2);
  return [it.write(encode("X"))];
}));
says("a write of nothing past the end by a handle", [0, 4, "ab\0\0"], ({ dir }) => handled(dir, "ab", (it) => [it.write(new Uint8Array(0), { at: 4 }), it.getSize()]),
  { row: "past the end: write of 0 bytes", there: [0, 2, "ab"] });
says("a read past the end leaves the cursor at the size", ["", 1, "abX"], ({ dir }) => handled(dir, "ab", (it) => [readText(it, 4, { at: 5 }), it.write(encode("X"))]),
  { row: "`read`", there: ["", 1, "ab\0\0\0X"] });
says("buffers are views and parts of them", [2, 2, 1, 2, "..bc..", "abcdXYZ"], ({ dir }) => handled(dir, "abcd", (it) => {
  const bytes = encode("......");
  const count = it.read(bytes.subarray(2, 4), { at: 1 });
  const all = [count, it.write(new DataView(encode("-XY-").buffer, 1, 2), { at: 4 }), it.write(encode("Z").buffer), it.read(new Uint16Array(1), { at: 0 })];
  return [...all, decode(bytes)];
}));
says("what is no buffer is refused", ["TypeError", "TypeError", "TypeError", "TypeError"], async ({ dir }) => (await handled(dir, "", (it) =>
  toldAll(() => it.read(), () => it.read("a"), () => it.write(7), () => it.write({})))).slice(0, 4));
says("what is no place is refused", Array(6).fill("TypeError"), async ({ dir }) => (await handled(dir, "", (it) => {
  const one = new Uint8Array(1);
  const places = [-1, 2 ** 53].map((at) => () => it.read(one, { at }));
  return toldAll(...places, () => it.write(one, { at: NaN }), () => it.truncate(-1), () => it.truncate(), () => it.truncate(Infinity));
})).slice(0, 6));
says("places are converted", ["b", "c", "abcd"], ({ dir }) => handled(dir, "abcd", (it) => [readText(it, 1, { at: 1.9 }), readText(it, 1, { at: "2" })]));
says("many bytes go in and out by one call", [140000, 140000, true, 140000], async ({ dir }) => {
  const file = await made(dir);
  const handle = await file.createSyncAccessHandle();
  const bytes = new Uint8Array(150000);
  const all = [handle.write(patterned(140000)), handle.read(bytes, { at: 0 }), isPattern(bytes.subarray(0, 140000)), handle.getSize()];
  handle.close();
  return all;
});
says("calls of a handle give nothing, or a number", ["undefined", "undefined", "number", "undefined"], async ({ dir }) => {
  const handle = await (await made(dir)).createSyncAccessHandle();
  return [typeof handle.truncate(3), typeof handle.flush(), typeof handle.getSize(), typeof handle.close()];
});
says("a closed handle refuses, but can be closed", [...Array(5).fill("InvalidStateError"), "ok"], async ({ dir }) => {
  const handle = await (await made(dir)).createSyncAccessHandle();
  handle.close();
  const one = new Uint8Array(1);
  return toldAll(() => handle.read(one), () => handle.write(one), () => handle.truncate(0), () => handle.getSize(), () => handle.flush(), () => handle.close());
});
says("a read-only handle reads alone", ["ab", 2, "NoModificationAllowedError", "NoModificationAllowedError", "ab"], ({ dir }) => handled(dir, "ab", async (it) =>
  [readText(it, 9), it.getSize(), ...await toldAll(() => it.write(encode("X")), () => it.truncate(0))], { mode: "read-only" }));
says("flush of a read-only handle", ["ok", "ab"], ({ dir }) => handled(dir, "ab", (it) => toldAll(() => it.flush()), { mode: "read-only" }),
  { row: "`flush` of a read-only handle", there: ["NoModificationAllowedError", "ab"] });
says("the file has what a handle wrote, and a new size", ["written", 7], async ({ dir }) => {
  const file = await made(dir);
  const handle = await file.createSyncAccessHandle();
  handle.write(encode("written"));
  const all = [await textIn(file), await sizeOf(file)];
  handle.close();
  return all;
});
says("a file's new time is that of a handle's write", true, async ({ dir }) => {
  const file = await made(dir);
  const before = (await file.getFile()).lastModified;
  await pause(30);
  const handle = await file.createSyncAccessHandle();
  handle.write(encode("a"));
  handle.close();
  return (await file.getFile()).lastModified > before;
});

// Storage and buckets

says("persisted tells a flag, estimate two numbers", ["boolean", "number", "number", true], async ({ navigator }) => {
  const { usage, quota } = await navigator.storage.estimate();
  return [typeof await navigator.storage.persisted(), typeof usage, typeof quota, usage <= quota];
});
says("what is stored is used", true, async ({ dir, navigator }) => {
  const before = (await navigator.storage.estimate()).usage;
  await filled(dir, patterned(140000));
  return (await navigator.storage.estimate()).usage >= before + 130000;
});
says("a bucket has a root of its own", ["mine", "directory", "", ["inside"], false, null], async ({ dir, navigator }) => {
  const bucket = await navigator.storageBuckets.open("mine");
  const root = await bucket.getDirectory();
  const file = await made(root, "inside");
  return [bucket.name, root.kind, root.name, await listOf(root.keys()), await root.isSameEntry(await navigator.storage.getDirectory()), await dir.resolve(file)];
});
says("a bucket is the same when it is opened again", [true, false], async ({ navigator }) => {
  const [one, again, two] = await Promise.all(["again", "again", "another"].map(async (it) => (await navigator.storageBuckets.open(it)).getDirectory()));
  return [await one.isSameEntry(again), await one.isSameEntry(two)];
});
says("a bucket's flag is a flag", "boolean", async ({ navigator }) => typeof await (await navigator.storageBuckets.open("flag")).persisted());
says("buckets have names of their own", [...Array(7).fill("TypeError"), ...Array(4).fill("ok")], ({ navigator }) => {
  const names = ["", "A", "-a", "_a", "a b", "\u00e4", "a".repeat(65), "a", "0", "a-b_c", "a".repeat(63)];
  return toldAll(...names.map((it) => async () => void await navigator.storageBuckets.open(it)));
});
says("the bucket `default` is the one of navigator.storage", true, async ({ navigator }) => {
  const root = await (await navigator.storageBuckets.open("default")).getDirectory();
  return root.isSameEntry(await navigator.storage.getDirectory());
}, { row: "bucket `default`", there: false });
says("nothing is persisted unasked", false, ({ navigator }) => navigator.storage.persisted(), { row: "`persisted` unasked", there: true });
says("with the permission a window can persist", [[true, true], true], [
  ["page", async ({ navigator }) => [await navigator.storage.persist(), await navigator.storage.persisted()]],
  ["a", ({ navigator }) => navigator.storage.persisted()],
]);
says("and a bucket", [true, true], [
  ["page", async ({ navigator }) => (await navigator.storageBuckets.open("kept")).persist()],
  ["a", async ({ navigator }) => (await navigator.storageBuckets.open("kept")).persisted()],
]);
