// Directories, names, removal, places and iteration.

import { NO_NAMES, filled, freed, listOf, made, madeDir, says, sizeOf, textIn, told, toldAll } from "./table.mjs";

// Directories and names

says("the root is a directory without a name", ["directory", ""], async ({ navigator }) => {
  const root = await navigator.storage.getDirectory();
  return [root.kind, root.name];
});
says("two roots are the same entry", true, async ({ navigator }) => {
  const root = await navigator.storage.getDirectory();
  return root.isSameEntry(await navigator.storage.getDirectory());
});
says("a file that is made is empty", ["file", "f", 0], async ({ dir }) => {
  const file = await made(dir);
  return [file.kind, file.name, await sizeOf(file)];
});
says("a directory that is made is empty", ["directory", "d", 0], async ({ dir }) => {
  const inner = await madeDir(dir);
  return [inner.kind, inner.name, (await listOf(inner.keys())).length];
});
says("what is missing is not found without create", ["NotFoundError", "NotFoundError", "NotFoundError"], ({ dir }) => toldAll(
  () => dir.getFileHandle("f"), () => dir.getDirectoryHandle("d", {}), () => dir.getFileHandle("f", { create: false })));
says("a child of the other kind is a mismatch, also with create", Array(4).fill("TypeMismatchError"), async ({ dir }) => {
  await made(dir);
  await madeDir(dir);
  return toldAll(() => dir.getFileHandle("d"), () => dir.getDirectoryHandle("f"), () => made(dir, "d"), () => madeDir(dir, "f"));
});
says("create leaves what is there", "old", async ({ dir }) => {
  await filled(dir, "old");
  return textIn(await made(dir));
});
says("no file has a name that is not valid", Array(7).fill("TypeError"), ({ dir }) => toldAll(...NO_NAMES.map((it) => () => made(dir, it))));
says("no directory either", Array(7).fill("TypeError"), ({ dir }) => toldAll(...NO_NAMES.map((it) => () => madeDir(dir, it))));
says("nor is one looked up or removed", Array(21).fill("TypeError"), ({ dir }) => toldAll(...NO_NAMES.flatMap((it) =>
  [() => dir.getFileHandle(it), () => dir.getDirectoryHandle(it), () => dir.removeEntry(it)])));
says("other names are valid", true, async ({ dir }) => {
  const names = [" ", "...", "a.", ".a", " a ", "A", "a", "a:b", "*", "?", "con", "\u00e4", "a\u0308", "\u65e5\u672c", "\ud83e\udd86", "a\tb", "a\nb", "\"", "'", "%2f"];
  for (const name of names) await made(dir, name);
  return (await listOf(dir.keys())).sort().join("|") === names.sort().join("|");
});
says("half of a pair in a name becomes U+FFFD", ["a\ufffd", ["a\ufffd"]], async ({ dir }) =>
  [(await made(dir, "a\ud800")).name, await listOf(dir.keys())]);
says("a name is made a text", ["7", "undefined", "null", "TypeError"], async ({ dir }) => [
  ...await Promise.all([7, undefined, null].map(async (it) => (await dir.getFileHandle(it, { create: true })).name)), await told(() => dir.getFileHandle())]);
says("a name with a backslash", "a\\b", async ({ dir }) => told(async () => (await made(dir, "a\\b")).name),
  { row: "name with a backslash", there: "TypeError" });
says("a name with U+0000", ["a\0b"], async ({ dir }) => (await made(dir, "a\0b")) && listOf(dir.keys()),
  { row: "with U+0000", there: ["a"] });
says("names of 255 bytes and paths of 32 names are there", ["a".repeat(255), 30], async ({ dir }) => {
  let inner = dir;
  for (let level = 0; level < 30; level += 1) inner = await madeDir(inner, "d");
  const file = await made(inner, "a".repeat(255));
  return [file.name, (await dir.resolve(file)).length - 1];
});
says("a name of 256 bytes", "ok", async ({ dir }) => told(async () => void await made(dir, "a".repeat(256))),
  { row: "name over 255 bytes, or over 32 levels", here: "OperationError" });
says("a path of 33 names", "ok", async ({ dir }) => told(async () => {
  let inner = dir;
  for (let level = 0; level < 32; level += 1) inner = await madeDir(inner, "d");
}), { row: "name over 255 bytes, or over 32 levels", here: "OperationError" });
says("options that are no object", ["TypeError", "NotFoundError", "TypeError"], ({ dir }) => toldAll(
  () => dir.getFileHandle("f", 7), () => dir.getFileHandle("f", null), () => dir.removeEntry("f", "recursive")));
says("nobody makes a handle himself", Array(4).fill("TypeError"), async ({ dir }) => {
  const file = await made(dir);
  const stream = await file.createWritable();
  await stream.abort();
  const handle = await freed(() => file.createSyncAccessHandle());
  handle.close();
  return toldAll(...[dir, file, stream, handle].map((it) => () => void new it.constructor()));
});
says("objects tell their kind", ["[object FileSystemDirectoryHandle]", "[object FileSystemFileHandle]", "[object File]", "[object Blob]"], async ({ dir }) => {
  const file = await made(dir);
  const snapshot = await file.getFile();
  return [dir, file, snapshot, snapshot.slice()].map((it) => Object.prototype.toString.call(it));
});

// Removal

says("a removed file is gone", ["ok", "NotFoundError", []], async ({ dir }) => {
  await made(dir);
  return [await told(() => dir.removeEntry("f")), await told(() => dir.getFileHandle("f")), await listOf(dir.keys())];
});
says("what is missing cannot be removed", "NotFoundError", ({ dir }) => told(() => dir.removeEntry("f")));
says("an empty directory can be removed", "ok", async ({ dir }) => (await madeDir(dir)) && told(() => dir.removeEntry("d")));
says("one that is not empty only recursively", ["InvalidModificationError", "InvalidModificationError", "ok", []], async ({ dir }) => {
  await made(await madeDir(await madeDir(dir), "e"));
  const all = await toldAll(() => dir.removeEntry("d"), () => dir.removeEntry("d", { recursive: false }), () => dir.removeEntry("d", { recursive: true }));
  return [...all, await listOf(dir.keys())];
});
says("the handle of a removed file finds nothing", Array(2).fill("NotFoundError"), async ({ dir }) => {
  const file = await made(dir);
  await dir.removeEntry("f");
  return toldAll(() => file.getFile(), () => file.createSyncAccessHandle());
});
says("createWritable on the handle of a removed file", "NotFoundError", async ({ dir }) => {
  const file = await made(dir);
  await dir.removeEntry("f");
  return told(async () => void await (await file.createWritable()).abort());
}, { row: "`createWritable` on the handle of a removed file", there: "ok" });
says("it finds a file that is made there anew", "new", async ({ dir }) => {
  const file = await filled(dir, "old");
  await dir.removeEntry("f");
  await filled(dir, "new");
  return textIn(file);
});
says("a removed directory has and takes nothing", ["NotFoundError", "NotFoundError", "NotFoundError", "NotFoundError", "TypeError"], async ({ dir }) => {
  const inner = await madeDir(dir);
  await dir.removeEntry("d");
  return toldAll(() => made(inner), () => madeDir(inner), () => inner.removeEntry("f"), () => listOf(inner.keys()), () => made(inner, ""));
});
says("a file with an open stream stays", ["NoModificationAllowedError", "ok"], async ({ dir }) => {
  const stream = await (await made(dir)).createWritable();
  const first = await told(() => dir.removeEntry("f"));
  await stream.close();
  return [first, await told(() => dir.removeEntry("f"))];
});
says("one with an open access handle too", ["NoModificationAllowedError", "ok"], async ({ dir }) => {
  const handle = await (await made(dir)).createSyncAccessHandle();
  const first = await told(() => dir.removeEntry("f"));
  handle.close();
  return [first, await told(() => dir.removeEntry("f"))];
});
says("a directory above one stays whole", ["NoModificationAllowedError", "e,f", "ok"], async ({ dir }) => {
  const inner = await madeDir(dir);
  await made(inner, "e");
  const handle = await (await made(inner)).createSyncAccessHandle();
  const first = await told(() => dir.removeEntry("d", { recursive: true }));
  const names = (await listOf(inner.keys())).sort().join();
  handle.close();
  return [first, names, await told(() => dir.removeEntry("d", { recursive: true }))];
});
says("a directory with a locked file, not recursively", "InvalidModificationError", async ({ dir }) => {
  const handle = await (await made(await madeDir(dir))).createSyncAccessHandle();
  const answer = await told(() => dir.removeEntry("d"));
  handle.close();
  return answer;
}, { row: "`removeEntry`, not recursive, a locked file in it", there: "NoModificationAllowedError" });
says("a handle whose name now has the other kind", ["NotFoundError", "NotFoundError"], async ({ dir }) => {
  const file = await made(dir, "x");
  await dir.removeEntry("x");
  await madeDir(dir, "x");
  return toldAll(async () => (await file.getFile()).size, () => file.createSyncAccessHandle());
}, { row: "handle whose name now has the other kind", there: [0, "TypeMismatchError"] });

// resolve and isSameEntry

says("resolve gives the names from a directory on", [[], ["d"], ["d", "e"], ["d", "e", "f"], ["e", "f"]], async ({ dir }) => {
  const outer = await madeDir(dir);
  const inner = await madeDir(outer, "e");
  const file = await made(inner);
  return [await dir.resolve(dir), await dir.resolve(outer), await dir.resolve(inner), await dir.resolve(file), await outer.resolve(file)];
});
says("and null for what is not below", [null, null, null], async ({ dir }) => {
  const one = await madeDir(dir, "one");
  const two = await madeDir(dir, "two");
  return [await one.resolve(dir), await one.resolve(two), await two.resolve(await made(one))];
});
says("resolve asks for no entry that is there", ["f"], async ({ dir }) => {
  const file = await made(dir);
  await dir.removeEntry("f");
  return dir.resolve(file);
});
says("entries are the same by place and kind", [true, false, false, false, true], async ({ dir }) => {
  const file = await made(dir);
  const other = await made(dir, "g");
  await dir.removeEntry("g");
  const later = await madeDir(dir, "g");
  const again = await dir.getFileHandle("f");
  return [await file.isSameEntry(again), await file.isSameEntry(other), await other.isSameEntry(later), await file.isSameEntry(dir), await dir.isSameEntry(dir)];
});
says("both want a handle", Array(5).fill("TypeError"), ({ dir }) => toldAll(
  () => dir.resolve(), () => dir.resolve("f"), () => dir.isSameEntry(), () => dir.isSameEntry({}), () => dir.resolve(null)));

// Iteration

says("an empty directory gives nothing", [[], [], []], async ({ dir }) => [await listOf(dir.keys()), await listOf(dir.values()), await listOf(dir)]);
says("keys, values and entries tell the children", ["d,f", "directory d,file f", "d:directory,f:file", "d:directory,f:file"], async ({ dir }) => {
  await made(dir);
  await madeDir(dir);
  const pairs = (all) => all.map(([name, it]) => `${name}:${it.kind}`).sort().join();
  const values = (await listOf(dir.values())).map((it) => `${it.kind} ${it.name}`).sort().join();
  return [(await listOf(dir.keys())).sort().join(), values, pairs(await listOf(dir.entries())), pairs(await listOf(dir))];
});
says("a directory is iterated by its entries", [true, "function", true], async ({ dir }) => {
  const iterator = dir.values();
  return [dir[Symbol.asyncIterator] === dir.entries, typeof iterator.next, iterator[Symbol.asyncIterator]() === iterator];
});
says("handles that are given can be used", ["in it", true], async ({ dir }) => {
  await filled(dir, "in it");
  const [file] = await listOf(dir.values());
  return [await textIn(file), await file.isSameEntry(await dir.getFileHandle("f"))];
});
says("at the end it stays", [{ done: true }, { done: true }], async ({ dir }) => {
  const iterator = dir.keys();
  return [await iterator.next(), await iterator.next()];
});
says("at the end it stays, whatever is made then", [true, true], async ({ dir }) => {
  const iterator = dir.keys();
  const first = await iterator.next();
  await made(dir);
  return [first.done, (await iterator.next()).done];
});
says("two iterators go on by themselves", [1, 2, 2], async ({ dir }) => {
  await made(dir, "a");
  await made(dir, "b");
  const one = dir.keys();
  await one.next();
  return [(await listOf(one)).length, (await listOf(dir.keys())).length, (await listOf(dir.keys())).length];
});
says("their order", ["a", "b", "c"], async ({ dir }) => {
  for (const name of "bca") await made(dir, name);
  return listOf(dir.keys());
}, { row: "`values`: order", there: ["c", "b", "a"] });
says("what is made meanwhile is given", ["b", "c"], async ({ dir }) => {
  await made(dir, "b");
  const iterator = dir.keys();
  const first = (await iterator.next()).value;
  await made(dir, "c");
  return [first, (await iterator.next()).value ?? "end"];
}, { row: "made meanwhile", there: ["b", "end"] });
says("of a directory that is removed nothing more is given", ["NotFoundError", true], async ({ dir }) => {
  const inner = await madeDir(dir);
  await made(inner, "a");
  await made(inner, "b");
  const iterator = inner.keys();
  await iterator.next();
  await dir.removeEntry("d", { recursive: true });
  const next = await told(async () => (await iterator.next()).done);
  return [next, (await iterator.next()).done];
}, { row: "removed", there: [false, true] });
says("while a stream is open its file alone is listed", ["f"], async ({ dir }) => {
  const stream = await (await made(dir)).createWritable();
  const names = await listOf(dir.keys());
  await stream.abort();
  return names;
}, { row: "swap files", there: ["f.crswap", "f"] });
