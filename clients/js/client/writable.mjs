// Streams that write a file's content, which is there once the stream is closed.

import { WritableStream } from "node:stream/web";
import { bytesOf, dataOf, isBuffer, longOf, oneOf, textOf, wants } from "./convert.mjs";
import { checkKey } from "./keys.mjs";
import { later } from "./refusals.mjs";
import { StoredBlob } from "./snapshots.mjs";

const MOST_WRITE = 16_777_216;

const isBlob = (value) => value instanceof Blob || value instanceof StoredBlob;
const isObject = (value) => typeof value === "object" || typeof value === "function";

// What data is, as the Standard takes it: a buffer or a Blob, otherwise a text.
const contentOf = (value) => (isBuffer(value) || isBlob(value) ? value : textOf(value));

// A position or size; null stands for a missing one.
const numberOf = (value) => (value === undefined || value === null ? undefined : longOf(value));

// A chunk as Web IDL converts it: a command. A command is converted into itself.
function commandOf(chunk) {
  if (chunk === undefined || chunk === null) throw new TypeError("a command has a type");
  if (isBuffer(chunk) || isBlob(chunk) || !isObject(chunk)) return { type: "write", data: contentOf(chunk) };
  const { data, position, size, type } = chunk;
  return {
    data: data === undefined || data === null ? undefined : contentOf(data),
    position: numberOf(position),
    size: numberOf(size),
    type: oneOf(["write", "seek", "truncate"], type),
  };
}

// A command that has what it wants.
function wholeOf(command) {
  const wanted = { write: "data", seek: "position", truncate: "size" }[command.type];
  if (command[wanted] === undefined) throw new TypeError(`${command.type} wants ${wanted}`);
  return command;
}

async function contentBytes(data) {
  if (typeof data === "string") return Buffer.from(data);
  return isBlob(data) ? Buffer.from(await data.arrayBuffer()) : bytesOf(data);
}

// The other end of the stream: does each command on the store's stream.
class Sink {
  #variable;
  isClosed = false;

  constructor(variable) {
    this.#variable = variable;
    variable.agent.keep(variable);
  }

  async write(chunk) {
    try {
      const { type, data, position, size } = wholeOf(commandOf(chunk));
      const bytes = type === "write" ? await contentBytes(data) : undefined;
      await later(() => this.#do(type, { bytes, position, size }));
    } catch (why) {
      this.#giveUp();
      throw why;
    }
  }

  #do(type, { bytes, position, size }) {
    if (type === "seek") this.#variable.ask("seek", "stream", { position });
    if (type === "truncate") this.#variable.ask("truncate", "stream", { size });
    if (type === "write") this.#writeParts(bytes, position);
  }

  #writeParts(bytes, position) {
    let done = 0;
    do {
      const part = bytes.subarray(done, done + MOST_WRITE);
      this.#variable.ask("write", "stream", { position: done === 0 ? position : undefined }, dataOf(part));
      done += part.length;
    } while (done < bytes.length);
  }

  async close() {
    try {
      await later(() => this.#variable.agent.stamp("close", { stream: this.#variable.name }));
    } catch (why) {
      this.#giveUp();
      throw why;
    }
    this.isClosed = true;
    this.#letGo();
  }

  async abort() {
    await later(() => this.#variable.ask("abort", "stream"));
    this.#letGo();
  }

  // A stream that was refused something is of no more use: the store's is aborted, which gives its lock back.
  #giveUp() {
    try {
      this.#variable.ask("abort", "stream");
    } catch {
      // it has ended, or its agent
    }
    this.#letGo();
  }

  #letGo() {
    this.#variable.agent.letGo(this.#variable);
  }
}

export class FileSystemWritableFileStream extends WritableStream {
  #sink;

  constructor(key, variable) {
    checkKey(key);
    const sink = new Sink(variable);
    super(sink);
    this.#sink = sink;
  }

  async write(...list) {
    wants(list, 1);
    return this.#put(commandOf(list[0]));
  }

  async seek(...list) {
    wants(list, 1);
    return this.#put({ type: "seek", position: longOf(list[0]) });
  }

  async truncate(...list) {
    wants(list, 1);
    return this.#put({ type: "truncate", size: longOf(list[0]) });
  }

  // The writer is let go before the command is done, so that others may follow at once. Writers of Node 20 fail where a stream is closed.
  #put(chunk) {
    const writer = this.getWriter();
    if (this.#sink.isClosed) {
      writer.releaseLock();
      throw new TypeError("the stream is closed");
    }
    const done = writer.write(chunk);
    writer.releaseLock();
    return done;
  }

  get [Symbol.toStringTag]() {
    return "FileSystemWritableFileStream";
  }
}
