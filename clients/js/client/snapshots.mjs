// What `getFile` gives: a file's bytes as they were then. They stay with the store, and are read where they are asked for.

import { ReadableStream } from "node:stream/web";
import { takeBytes, textOf } from "./convert.mjs";
import { checkKey, KEY } from "./keys.mjs";
import { later } from "./refusals.mjs";

const MOST_READ = 65_536;

// A place that may be counted from the end, within a size.
function placeIn(size, value, absent) {
  if (value === undefined) return absent;
  const number = Math.trunc(+value) || 0;
  return number < 0 ? Math.max(size + number, 0) : Math.min(number, size);
}

// A type as a Blob keeps it: in lower case, and none where it has other signs than visible ones.
const typeOf = (value) => (value === undefined || /[^\x20-\x7e]/.test(value) ? "" : `${value}`.toLowerCase());

// A Blob's members over a part of a snapshot. It is no Blob of Node's, which would have to hold the bytes.
export class StoredBlob {
  #variable;
  #from;
  #size;
  #type;

  constructor(key, variable, from, size, type = "") {
    checkKey(key);
    this.#variable = variable;
    this.#from = from;
    this.#size = size;
    this.#type = type;
  }

  get size() {
    return this.#size;
  }

  get type() {
    return this.#type;
  }

  slice(start, end, type) {
    const from = placeIn(this.#size, start, 0);
    const to = Math.max(placeIn(this.#size, end, this.#size), from);
    return new StoredBlob(KEY, this.#variable, this.#from + from, to - from, typeOf(type));
  }

  // Puts the bytes from a place on into a buffer.
  #read(into, place) {
    for (let done = 0; done < into.length; done += MOST_READ) {
      const len = Math.min(into.length - done, MOST_READ);
      takeBytes(this.#variable.ask("slice", "snapshot", { at: this.#from + place + done, len }), into, done);
    }
    return into;
  }

  #all() {
    return this.#read(Buffer.from(new ArrayBuffer(this.#size)), 0);
  }

  arrayBuffer() {
    return later(() => this.#all().buffer);
  }

  bytes() {
    return later(() => new Uint8Array(this.#all().buffer));
  }

  text() {
    return later(() => new TextDecoder().decode(this.#all()));
  }

  stream() {
    let place = 0;
    const pull = (controller) => {
      const size = Math.min(this.#size - place, MOST_READ);
      if (size > 0) controller.enqueue(new Uint8Array(this.#read(Buffer.from(new ArrayBuffer(size)), place).buffer));
      place += size;
      if (place < this.#size) return;
      controller.close();
      controller.byobRequest?.respond(0);
    };
    return new ReadableStream({ type: "bytes", pull: (controller) => later(() => pull(controller)) });
  }

  get [Symbol.toStringTag]() {
    return "Blob";
  }
}

export class StoredFile extends StoredBlob {
  #name;
  #lastModified;

  constructor(key, variable, [size, stamp], name) {
    super(key, variable, 0, size);
    variable.weigh(size);
    this.#name = textOf(name);
    this.#lastModified = stamp;
  }

  get name() {
    return this.#name;
  }

  get lastModified() {
    return this.#lastModified;
  }

  get webkitRelativePath() {
    return "";
  }

  get [Symbol.toStringTag]() {
    return "File";
  }
}
