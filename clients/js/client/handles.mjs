// Handles of directories and files.

import { FileSystemSyncAccessHandle } from "./access.mjs";
import { dictionaryOf, oneOf, textOf, wants } from "./convert.mjs";
import { later } from "./refusals.mjs";
import { KEY, checkKey } from "./keys.mjs";
import { StoredFile } from "./snapshots.mjs";
import { FileSystemWritableFileStream } from "./writable.mjs";

const AsyncIterator = Object.getPrototypeOf(Object.getPrototypeOf(async function* () {}.prototype));

export class FileSystemHandle {
  #variable;
  #name;

  constructor(key, variable, name) {
    checkKey(key);
    this.#variable = variable;
    this.#name = name;
  }

  get name() {
    return this.#name;
  }

  isSameEntry(...list) {
    return later(() => {
      const variable = this.#variable;
      wants(list, 1);
      return variable.ask("isSameEntry", "entry", { other: nameIn(variable.agent, list[0]) }) === "true";
    });
  }

  static variableOf(key, handle) {
    checkKey(key);
    if (!(#variable in Object(handle))) throw new TypeError("that is no handle");
    return handle.#variable;
  }

  get [Symbol.toStringTag]() {
    return "FileSystemHandle";
  }
}

const variableOf = (handle) => FileSystemHandle.variableOf(KEY, handle);

// The name of a handle's variable, which only its own agent has.
function nameIn(agent, handle) {
  const variable = variableOf(handle);
  if (variable.agent !== agent) throw new TypeError("the handle is another agent's");
  return variable.name;
}

// A child: what a call of its directory bound for it.
function childOf(directory, word, list) {
  const { agent, name: dir } = directory;
  wants(list, 1);
  const name = textOf(list[0]);
  const create = Boolean(dictionaryOf(list[1]).create);
  const { variable } = agent.bind(word, { dir, name, create }, { stamps: create });
  return { variable, name };
}

export class FileSystemDirectoryHandle extends FileSystemHandle {
  get kind() {
    variableOf(this);
    return "directory";
  }

  getFileHandle(...list) {
    return later(() => {
      const { variable, name } = childOf(variableOf(this), "getFileHandle", list);
      return new FileSystemFileHandle(KEY, variable, name);
    });
  }

  getDirectoryHandle(...list) {
    return later(() => {
      const { variable, name } = childOf(variableOf(this), "getDirectoryHandle", list);
      return new FileSystemDirectoryHandle(KEY, variable, name);
    });
  }

  removeEntry(...list) {
    return later(() => {
      const variable = variableOf(this);
      wants(list, 1);
      const name = textOf(list[0]);
      const recursive = Boolean(dictionaryOf(list[1]).recursive);
      variable.ask("removeEntry", "dir", { name, recursive });
    });
  }

  resolve(...list) {
    return later(() => {
      const variable = variableOf(this);
      wants(list, 1);
      return JSON.parse(variable.ask("resolve", "dir", { entry: nameIn(variable.agent, list[0]) }));
    });
  }

  keys() {
    return new EntryIterator(KEY, variableOf(this), ({ name }) => name);
  }

  values() {
    return new EntryIterator(KEY, variableOf(this), (handle) => handle);
  }

  entries() {
    return new EntryIterator(KEY, variableOf(this), (handle) => [handle.name, handle]);
  }

  get [Symbol.toStringTag]() {
    return "FileSystemDirectoryHandle";
  }
}

Object.defineProperty(FileSystemDirectoryHandle.prototype, Symbol.asyncIterator, {
  value: FileSystemDirectoryHandle.prototype.entries, writable: true, configurable: true,
});

export class FileSystemFileHandle extends FileSystemHandle {
  get kind() {
    variableOf(this);
    return "file";
  }

  getFile() {
    return later(() => {
      const { agent, name: file } = variableOf(this);
      const { variable, answer } = agent.bind("getFile", { file });
      return new StoredFile(KEY, variable, answer.split(" ").map(Number), this.name);
    });
  }

  createWritable(options) {
    return later(() => {
      const { agent, name: file } = variableOf(this);
      const keepExistingData = Boolean(dictionaryOf(options).keepExistingData);
      const { variable } = agent.bind("createWritable", { file, keepExistingData });
      return new FileSystemWritableFileStream(KEY, variable);
    });
  }

  createSyncAccessHandle(options) {
    return later(() => {
      const { agent, name: file } = variableOf(this);
      const mode = oneOf(["readwrite", "read-only"], dictionaryOf(options).mode, "readwrite");
      const { variable } = agent.bind("createSyncAccessHandle", { file, mode });
      return new FileSystemSyncAccessHandle(KEY, variable);
    });
  }

  get [Symbol.toStringTag]() {
    return "FileSystemFileHandle";
  }
}

// Gives a directory's children, one a call of `next`.
class EntryIterator {
  #variable;
  #told;
  #isDone = false;

  constructor(key, directory, told) {
    checkKey(key);
    this.#variable = directory.agent.bind("values", { dir: directory.name }).variable;
    this.#told = told;
  }

  next() {
    return later(() => {
      const handle = this.#isDone ? null : this.#child();
      return handle === null ? { value: undefined, done: true } : { value: this.#told(handle), done: false };
    });
  }

  // Once there is no child, or a refusal, there is none any more.
  #child() {
    const { agent, name: iterator } = this.#variable;
    this.#isDone = true;
    const { variable, answer } = agent.bind("next", { iterator });
    if (answer === "end") return null;
    this.#isDone = false;
    const [kind] = answer.split(" ", 1);
    const name = JSON.parse(answer.slice(kind.length + 1));
    return new (kind === "file" ? FileSystemFileHandle : FileSystemDirectoryHandle)(KEY, variable, name);
  }

  get [Symbol.toStringTag]() {
    return "FileSystemDirectoryHandle AsyncIterator";
  }
}

Object.setPrototypeOf(EntryIterator.prototype, AsyncIterator);
