// The table of behaviours, and what most of them need.

export const BEHAVIOURS = [];

// Adds one; behaviours.mjs says what stands for what.
export function says(what, wants, calls, odd = {}) {
  const isList = Array.isArray(calls);
  BEHAVIOURS.push({ what, wants, isList, steps: isList ? calls : [["a", calls]], ...odd });
}

// What a call gives, or the name of what it throws.
export async function told(call) {
  try {
    const value = await call();
    return value === undefined ? "ok" : value;
  } catch (why) {
    return why === undefined ? "undefined" : why.name;
  }
}

export async function toldAll(...calls) {
  const all = [];
  for (const call of calls) all.push(await told(call));
  return all;
}

// What a call gives that a lock refuses for a while: Chromium lets the lock of an aborted stream go a little later.
export async function freed(call) {
  for (let left = 40; ; left -= 1) {
    const answer = await told(call);
    if (answer !== "NoModificationAllowedError" || left === 0) return answer;
    await pause(50);
  }
}

export async function listOf(iterator) {
  const all = [];
  for await (const it of iterator) all.push(it);
  return all;
}

export const encode = (text) => new TextEncoder().encode(text);
export const decode = (bytes) => new TextDecoder().decode(bytes);
export const made = (dir, name = "f") => dir.getFileHandle(name, { create: true });
export const madeDir = (dir, name = "d") => dir.getDirectoryHandle(name, { create: true });
export const textIn = async (file) => (await file.getFile()).text();
export const sizeOf = async (file) => (await file.getFile()).size;
export const hex = (bytes) => Array.from(bytes, (it) => it.toString(16).padStart(2, "0")).join("");
export const pause = (ms) => new Promise((done) => setTimeout(done, ms));
export const NO_NAMES = ["", ".", "..", "/", "a/b", "/a", "a/"];

// A file with this content.
export async function filled(dir, text, name = "f") {
  const file = await made(dir, name);
  const stream = await file.createWritable();
  await stream.write(text);
  await stream.close();
  return file;
}

// What a file of this text is after calls on a stream of it.
export async function streamed(dir, text, calls, options = { keepExistingData: true }) {
  const file = await filled(dir, text);
  const stream = await file.createWritable(options);
  await calls(stream);
  await stream.close();
  return textIn(file);
}

// What calls on an access handle of a file with this text give, and the text after them.
export async function handled(dir, text, calls, options) {
  const file = await filled(dir, text);
  const handle = await file.createSyncAccessHandle(options);
  let value;
  try {
    value = await calls(handle);
  } finally {
    handle.close();
  }
  return [...value, await textIn(file)];
}

export function readText(handle, size, options) {
  const bytes = new Uint8Array(size);
  const count = handle.read(bytes, options);
  return decode(bytes.subarray(0, count));
}

// Bytes that tell their place.
export const patterned = (size) => Uint8Array.from({ length: size }, (_, at) => (at * 31 + (at >> 8)) & 255);
export const isPattern = (bytes) => bytes.every((it, at) => it === ((at * 31 + (at >> 8)) & 255));
