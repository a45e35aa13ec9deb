// Files and streams.

import { encode, filled, freed, hex, isPattern, listOf, made, patterned, pause, says, streamed, textIn, told, toldAll } from "./table.mjs";

// What streams say to each of some chunks.
async function refusedChunks(dir, chunks) {
  const file = await made(dir);
  return toldAll(...chunks.map((it) => async () => (await file.createWritable()).write(it)));
}

// Files

says("a file tells its name, size and time", ["f", 5, true, true], async ({ dir }) => {
  const before = Date.now();
  const file = await (await filled(dir, "hello")).getFile();
  return [file.name, file.size, Number.isInteger(file.lastModified), file.lastModified >= before - 2000 && file.lastModified <= Date.now()];
});
says("its bytes come in each form", ["h\u00e9", "68c3a9", "68c3a9", "68c3a9"], async ({ dir }) => {
  const file = await (await filled(dir, "h\u00e9")).getFile();
  const parts = await listOf(file.stream());
  const bytes = file.bytes ? await file.bytes() : new Uint8Array(await file.arrayBuffer());
  return [await file.text(), hex(new Uint8Array(await file.arrayBuffer())), hex(bytes), parts.map(hex).join("")];
});
says("an empty file has empty forms", ["", 0, 0], async ({ dir }) => {
  const file = await (await made(dir)).getFile();
  return [await file.text(), (await file.arrayBuffer()).byteLength, (await listOf(file.stream())).length];
});
says("a byte order mark is no text, but bytes", ["a", "efbbbf61"], async ({ dir }) => {
  const file = await (await filled(dir, "\ufeffa")).getFile();
  return [await file.text(), hex(new Uint8Array(await file.arrayBuffer()))];
});
says("what is no UTF-8 becomes U+FFFD", "\ufffdA", async ({ dir }) => textIn(await filled(dir, new Uint8Array([255, 65]))));
says("slices as a Blob has them", ["12", "89", "01234567", "", "9", "0123456789", "34", ""], async ({ dir }) => {
  const file = await (await filled(dir, "0123456789")).getFile();
  const all = [file.slice(1, 3), file.slice(-2), file.slice(0, -2), file.slice(5, 2), file.slice(9, 99), file.slice(), file.slice(2, 8).slice(1, 3), file.slice(99)];
  return Promise.all(all.map((it) => it.text()));
});
says("a slice tells its size and type", [3, "text/x", "", 0], async ({ dir }) => {
  const file = await (await filled(dir, "0123456789")).getFile();
  return [file.slice(1, 4).size, file.slice(1, 4, "Text/X").type, file.slice(1, 4, "\u00e4").type, file.slice(-2, -4).size];
});
says("many bytes come whole", [140000, true, true, 3], async ({ dir }) => {
  const file = await (await filled(dir, patterned(140000))).getFile();
  const slice = new Uint8Array(await file.slice(65535, 65538).arrayBuffer());
  const pattern = patterned(65538).subarray(65535);
  return [file.size, isPattern(new Uint8Array(await file.arrayBuffer())), hex(slice) === hex(pattern), slice.length];
});
says("many bytes come whole by a stream", true, async ({ dir }) => {
  const file = await (await filled(dir, patterned(140000))).getFile();
  const bytes = new Uint8Array(140000);
  let at = 0;
  for await (const part of file.stream()) {
    bytes.set(part, at);
    at += part.length;
  }
  return at === 140000 && isPattern(bytes);
});
says("a file that has changed since is not read", "NotReadableError", async ({ dir }) => {
  const snapshot = await (await filled(dir, "old")).getFile();
  await pause(20);
  await filled(dir, "newer");
  return told(() => snapshot.text());
}, { row: "`File` read after its file changed", here: "old" });
says("nor one that is gone", "NotFoundError", async ({ dir }) => {
  const snapshot = await (await filled(dir, "old")).getFile();
  await dir.removeEntry("f");
  return told(() => snapshot.text());
}, { row: "`File` read after its file changed", here: "old" });
says("its time is that of the close", true, async ({ dir }) => {
  const file = await made(dir);
  const stream = await file.createWritable();
  await stream.write("a");
  await pause(60);
  const before = Date.now();
  await pause(20);
  await stream.close();
  return (await file.getFile()).lastModified >= before;
}, { row: "time stamp of a stream's file", there: false });

// Streams

says("a stream's bytes are there once it is closed", ["old", "new"], async ({ dir }) => {
  const file = await filled(dir, "old");
  const stream = await file.createWritable();
  await stream.write("new");
  const before = await textIn(file);
  await stream.close();
  return [before, await textIn(file)];
});
says("a stream begins empty, or with what is there", ["", "old", ""], async ({ dir }) => [
  await streamed(dir, "old", () => {}, {}), await streamed(dir, "old", () => {}), await streamed(dir, "old", () => {}, { keepExistingData: false })]);
says("it writes over what it keeps", "newer old", ({ dir }) => streamed(dir, "older old", (stream) => stream.write("newer")));
says("of two streams the last close stays", ["one", "two"], async ({ dir }) => {
  const file = await made(dir);
  const [one, two] = [await file.createWritable(), await file.createWritable()];
  await two.write("two");
  await one.write("one");
  await one.close();
  const first = await textIn(file);
  await two.close();
  return [first, await textIn(file)];
});
says("write takes each form", "text/view/part/buffer/blob/file/7/true/", async ({ dir }) => {
  const other = await (await filled(dir, "file/", "g")).getFile();
  return streamed(dir, "", async (stream) => {
    const parts = ["text/", encode("view/"), new DataView(encode("a part/").buffer, 2), encode("buffer/").buffer, new Blob(["blob/"]), other, 7, "/", true, "/"];
    for (const part of parts) await stream.write(part);
  });
});
says("and each form as a command", "text/view/buffer/blob/file/7", async ({ dir }) => {
  const other = await (await filled(dir, "file/", "g")).getFile();
  return streamed(dir, "", async (stream) => {
    const parts = ["text/", encode("view/"), encode("buffer/").buffer, new Blob(["blob/"]), other, 7];
    for (const data of parts) await stream.write({ type: "write", data });
  });
});
says("a view of numbers is written as their bytes", "0100feff", async ({ dir }) => {
  const file = await filled(dir, Uint16Array.of(1, 0xfffe));
  return hex(new Uint8Array(await (await file.getFile()).arrayBuffer()));
});
says("half of a pair is written as U+FFFD", "a\ufffd", ({ dir }) => streamed(dir, "", (stream) => stream.write("a\ud800")));
says("what write and seek give is nothing", ["ok", "ok", "ok", "ok", "ok"], async ({ dir }) => {
  const stream = await (await made(dir)).createWritable();
  return toldAll(() => stream.write("a"), () => stream.seek(0), () => stream.truncate(0), () => stream.write({ type: "seek", position: 0 }), () => stream.close());
});
says("a position is where the next bytes go on", "abXYcdZ", ({ dir }) => streamed(dir, "ab..cd", async (stream) => {
  await stream.write({ type: "write", data: "XY", position: 2 });
  await stream.write({ type: "write", data: "cdZ" });
}));
says("seek sets it", "aXcdY", ({ dir }) => streamed(dir, "abcde", async (stream) => {
  await stream.seek(1);
  await stream.write("X");
  await stream.write({ type: "seek", position: 4 });
  await stream.write("Y");
}));
says("a gap is filled with zeros", ["ab\0\0c", "\0\0\0d"], async ({ dir }) => [
  await streamed(dir, "ab", (stream) => stream.write({ type: "write", data: "c", position: 4 })),
  await streamed(dir, "", async (stream) => {
    await stream.seek(3);
    await stream.write("d");
  })]);
says("seek alone makes nothing longer", "ab", ({ dir }) => streamed(dir, "ab", (stream) => stream.seek(9)));
says("truncate cuts and fills", ["ab", "abcd\0\0", "ab", ""], async ({ dir }) => [
  await streamed(dir, "abcd", (stream) => stream.truncate(2)), await streamed(dir, "abcd", (stream) => stream.truncate(6)),
  await streamed(dir, "abcd", (stream) => stream.write({ type: "truncate", size: 2 })), await streamed(dir, "abcd", (stream) => stream.truncate(0))]);
says("truncate moves the offset back to the end, and never on", ["abX", "aXcd\0\0"], async ({ dir }) => [
  await streamed(dir, "abcd", async (stream) => {
    await stream.seek(4);
    await stream.truncate(2);
    await stream.write("X");
  }),
  await streamed(dir, "abcd", async (stream) => {
    await stream.seek(1);
    await stream.truncate(6);
    await stream.write("X");
  })]);
says("a write of nothing before the end does nothing", "ab", ({ dir }) => streamed(dir, "ab", (stream) => stream.write("")));
says("a write of nothing past the end", "ab\0\0", ({ dir }) => streamed(dir, "ab", (stream) => stream.write({ type: "write", data: "", position: 4 })),
  { row: "past the end: write of 0 bytes", there: "ab" });
says("numbers are converted", "a1c2", ({ dir }) => streamed(dir, "abcd", async (stream) => {
  await stream.write({ type: "write", data: "1", position: "1" });
  await stream.seek(3.9);
  await stream.write("2");
}));
says("what is no command is refused", Array(6).fill("TypeError"), ({ dir }) => refusedChunks(dir, [null, undefined, {}, { type: "fly" }, { data: "a" }, Symbol("a")]));
says("a command that lacks what it does is refused", Array(3).fill("TypeError"), ({ dir }) =>
  refusedChunks(dir, [{ type: "write" }, { type: "seek" }, { type: "truncate" }]), {
  row: "command without `data`, `position` or `size`", there: Array(3).fill("SyntaxError"),
});
says("so is what has nothing in it", Array(4).fill("TypeError"), async ({ dir }) => {
  const file = await made(dir);
  const odd = [(it) => it.write(), (it) => it.seek(), (it) => it.truncate(), (it) => it.write({ type: "write", data: null })];
  const all = [];
  for (const call of odd) all.push(await told(async () => call(await file.createWritable())));
  return all;
});
says("what is no command leaves the stream as it was", ["TypeError", "TypeError", "newer"], async ({ dir }) => {
  const file = await filled(dir, "old");
  const stream = await file.createWritable();
  await stream.write("new");
  const all = await toldAll(() => stream.write({ type: "fly" }), () => stream.write());
  await stream.write("er");
  await stream.close();
  return [...all, await textIn(file)];
});
says("a stream that refused a command is of no more use", ["TypeError", "old", "ok"], async ({ dir }) => {
  const file = await filled(dir, "old");
  const stream = await file.createWritable();
  await stream.write("new");
  await told(() => stream.write({ type: "seek" }));
  return [await told(() => stream.close()), await textIn(file), await freed(async () => void (await file.createSyncAccessHandle()).close())];
});
says("by a writer what is no command ends it", ["TypeError", "TypeError", "TypeError", "old"], async ({ dir }) => {
  const file = await filled(dir, "old");
  const stream = await file.createWritable();
  const writer = stream.getWriter();
  const all = await toldAll(() => writer.write({ type: "fly" }), () => writer.write("new"), () => writer.close());
  return [...all, await textIn(file)];
});
says("abort keeps nothing", ["ok", "old"], async ({ dir }) => {
  const file = await filled(dir, "old");
  const stream = await file.createWritable();
  await stream.write("new");
  return [await told(() => stream.abort()), await textIn(file)];
});
says("a closed stream takes nothing", ["TypeError", "TypeError", "TypeError", "TypeError"], async ({ dir }) => {
  const stream = await (await made(dir)).createWritable();
  await stream.close();
  return toldAll(() => stream.write("a"), () => stream.seek(0), () => stream.truncate(0), () => stream.close());
});
says("but can be aborted", "ok", async ({ dir }) => {
  const stream = await (await made(dir)).createWritable();
  await stream.close();
  return told(() => stream.abort());
});
says("an aborted one tells why", ["SyntaxError", "undefined", "TypeError"], async ({ dir }) => {
  const file = await made(dir);
  const [one, two] = [await file.createWritable(), await file.createWritable()];
  await one.abort(new SyntaxError("mine"));
  await two.abort();
  return toldAll(() => one.write("a"), () => two.write("a"), () => two.close());
});
says("a stream is a WritableStream", [true, false, true, "TypeError", "TypeError", false], async ({ dir }) => {
  const stream = await (await made(dir)).createWritable();
  const first = [stream instanceof WritableStream, stream.locked];
  const writer = stream.getWriter();
  const all = [...first, stream.locked, await told(() => stream.write("a")), await told(() => stream.close())];
  writer.releaseLock();
  await stream.abort();
  return [...all, stream.locked];
});
says("a writer takes the same commands", "a-Xb", ({ dir }) => streamed(dir, "", async (stream) => {
  const writer = stream.getWriter();
  await writer.write("a--b");
  await writer.write({ type: "seek", position: 2 });
  await writer.write(encode("X"));
  writer.releaseLock();
}));
says("writes that nobody waits for come in order", "abcdef", ({ dir }) => streamed(dir, "", (stream) =>
  Promise.all([..."abcdef"].map((it) => stream.write(it)))));
says("a stream can be piped into", "piped on", async ({ dir }) => {
  const file = await made(dir);
  await new Blob(["piped", " on"]).stream().pipeTo(await file.createWritable());
  return textIn(file);
});
says("a file can be piped into another", true, async ({ dir }) => {
  const file = await filled(dir, patterned(200000));
  const other = await made(dir, "g");
  await (await file.getFile()).stream().pipeTo(await other.createWritable());
  return isPattern(new Uint8Array(await (await other.getFile()).arrayBuffer()));
});
