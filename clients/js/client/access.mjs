// Access handles: calls that answer at once.

import { bytesOf, dataOf, dictionaryOf, exactOf, takeBytes, wants } from "./convert.mjs";
import { checkKey } from "./keys.mjs";

const MOST_READ = 65_536;
const MOST_WRITE = 16_777_216;

// The place that options name, undefined for the cursor.
function placeOf(options) {
  const { at } = dictionaryOf(options);
  return at === undefined ? undefined : exactOf(at);
}

export class FileSystemSyncAccessHandle {
  #variable;
  #agent;
  #members;

  constructor(key, variable) {
    checkKey(key);
    this.#variable = variable;
    this.#agent = variable.agent;
    this.#members = { sync: variable.name };
    this.#agent.keep(variable);
  }

  // Reads into a buffer from `at`, or from the cursor, and gives how many bytes there were.
  read(...list) {
    const members = this.#members;
    wants(list, 1);
    const into = bytesOf(list[0]);
    let at = placeOf(list[1]);
    let done = 0;
    do {
      const len = Math.min(into.length - done, MOST_READ);
      const count = takeBytes(this.#agent.ask("syncRead", { ...members, len, at }), into, done);
      done += count;
      at = undefined;
      if (count < len) break;
    } while (done < into.length);
    return done;
  }

  // Writes a buffer at `at`, or at the cursor, and gives how many bytes went in: all of them, or the first parts where a later one was refused.
  write(...list) {
    const members = this.#members;
    wants(list, 1);
    const bytes = bytesOf(list[0]);
    let at = placeOf(list[1]);
    let done = 0;
    do {
      const part = bytes.subarray(done, done + MOST_WRITE);
      try {
        done += Number(this.#agent.stamp("syncWrite", { ...members, at }, dataOf(part)));
      } catch (why) {
        if (done === 0 || !(why instanceof DOMException)) throw why;
        return done;
      }
      at = undefined;
    } while (done < bytes.length);
    return done;
  }

  truncate(...list) {
    const members = this.#members;
    wants(list, 1);
    this.#agent.stamp("syncTruncate", { ...members, size: exactOf(list[0]) });
  }

  getSize() {
    return Number(this.#agent.ask("syncGetSize", this.#members));
  }

  flush() {
    this.#agent.ask("syncFlush", this.#members);
  }

  close() {
    this.#agent.ask("syncClose", this.#members);
    this.#agent.letGo(this.#variable);
  }

  get [Symbol.toStringTag]() {
    return "FileSystemSyncAccessHandle";
  }
}
