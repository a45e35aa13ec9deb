// What Web IDL makes of arguments, and how bytes stand in a step.

import { isUtf8 } from "node:buffer";
import { types } from "node:util";

const MOST_EXACT = Number.MAX_SAFE_INTEGER;

// A USVString: half of a pair becomes U+FFFD, as it does in UTF-8.
export function textOf(value) {
  return Buffer.from(`${value}`).toString();
}

export function wants(list, count) {
  if (list.length < count) throw new TypeError(`${count} arguments are wanted, and there are ${list.length}`);
}

// A dictionary, of which undefined and null are the empty one.
export function dictionaryOf(value) {
  if (value === undefined || value === null) return {};
  if (typeof value !== "object" && typeof value !== "function") throw new TypeError("the options are no object");
  return value;
}

// A member that is one of some words.
export function oneOf(words, value, absent) {
  const text = value === undefined ? absent : `${value}`;
  if (!words.includes(text)) throw new TypeError(`${JSON.stringify(text)} is none of ${words.join(", ")}`);
  return text;
}

// An unsigned long long that has to be in its range.
export function exactOf(value) {
  const number = Math.trunc(+value);
  if (!(number >= 0 && number <= MOST_EXACT)) throw new TypeError(`${value} is out of range`);
  return number + 0;
}

// An unsigned long long: what is out of range is taken modulo 2^64. No file has a byte beyond 2^53, and no step can tell one.
export function longOf(value) {
  const number = Math.trunc(+value);
  const whole = Number.isFinite(number) ? Number(BigInt.asUintN(64, BigInt(number))) : 0;
  if (whole > MOST_EXACT) throw new TypeError(`${value} is beyond 2^53`);
  return whole;
}

export const isBuffer = (value) => types.isArrayBuffer(value) || (ArrayBuffer.isView(value) && types.isArrayBuffer(value.buffer));

// The bytes of a buffer or of a view, which are not copied; shared ones are taken where the Standard takes them.
export function bytesOf(value) {
  if (ArrayBuffer.isView(value)) return Buffer.from(value.buffer, value.byteOffset, value.byteLength);
  if (types.isAnyArrayBuffer(value)) return Buffer.from(value);
  throw new TypeError("that is no buffer");
}

const isUniform = (bytes) => bytes.subarray(1).equals(bytes.subarray(0, -1));

// The shortest JSON text that stands for these bytes: one byte so many times, a text, or their digits.
export function dataOf(bytes) {
  const digits = 2 * bytes.length;
  if (bytes.length > 16 && isUniform(bytes)) return `{"fill":${bytes[0]},"count":${bytes.length}}`;
  if (isUtf8(bytes)) {
    const text = JSON.stringify(bytes.toString());
    if (Buffer.byteLength(text) <= digits + 10) return text;
  }
  return `{"hex":"${bytes.toString("hex")}"}`;
}

// Puts the bytes of an answer, `n` and their digits, into a buffer from a place on, and gives how many they are.
export function takeBytes(answer, into, at) {
  const blank = answer.indexOf(" ");
  return blank < 0 ? 0 : into.write(answer.slice(blank + 1), at, "hex");
}
