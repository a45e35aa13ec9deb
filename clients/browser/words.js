// The words of a script, each as the calls of the browser that it stands for. What a word gives is the text behind `ok`.

import { bytesOf } from "./script.js";

// What kinds a member's variable may name.
export const KINDS = {
  dir: ["directory"],
  file: ["file"],
  entry: ["directory", "file"],
  other: ["directory", "file"],
  iterator: ["iterator"],
  snapshot: ["snapshot"],
  stream: ["stream"],
  sync: ["access handle"],
};

const below = ({ unit, path }, name) => ({ unit, path: [...path, name] });

function textOfBytes(bytes) {
  const digits = Array.from(bytes, (it) => it.toString(16).padStart(2, "0")).join("");
  return digits === "" ? "0" : `${bytes.length} ${digits}`;
}

async function getChild(agent, kind, { dir, name, create = false, as }) {
  const parent = agent.get(dir);
  const call = kind === "file" ? "getFileHandle" : "getDirectoryHandle";
  agent.bind(as, kind, await parent.it[call](name, { create }), below(parent.place, name));
}

export const WORDS = {
  async getDirectory(agent, { bucket, as }) {
    const root = await agent.root(bucket);
    agent.bind(as, "directory", root, { unit: bucket ?? "default", path: [] });
  },
  getFileHandle: (agent, step) => getChild(agent, "file", step),
  getDirectoryHandle: (agent, step) => getChild(agent, "directory", step),
  async removeEntry(agent, { dir, name, recursive = false }) {
    await agent.get(dir).it.removeEntry(name, { recursive });
  },
  async values(agent, { dir, as }) {
    const { it, place } = agent.get(dir);
    agent.bind(as, "iterator", it.values(), place);
  },
  async next(agent, { iterator, as }) {
    const { it, place } = agent.get(iterator);
    const { done, value } = await it.next();
    if (done) return "end";
    agent.bind(as, value.kind, value, below(place, value.name));
    return `${value.kind} ${JSON.stringify(value.name)}`;
  },
  async resolve(agent, { dir, entry }) {
    return JSON.stringify(await agent.get(dir).it.resolve(agent.get(entry).it));
  },
  async isSameEntry(agent, { entry, other }) {
    return String(await agent.get(entry).it.isSameEntry(agent.get(other).it));
  },
  async getFile(agent, { file, as }) {
    const { it, place } = agent.get(file);
    const snapshot = await it.getFile();
    agent.bind(as, "snapshot", snapshot, place);
    return `${snapshot.size} ${agent.clock.momentOf(snapshot.lastModified)}`;
  },
  async slice(agent, { snapshot, at, len }) {
    const part = agent.get(snapshot).it.slice(at, at + len);
    return textOfBytes(new Uint8Array(await part.arrayBuffer()));
  },
  async createWritable(agent, { file, keepExistingData = false, as }) {
    const { it, place } = agent.get(file);
    agent.open(as, "stream", await it.createWritable({ keepExistingData }), place, "shared");
  },
  async write(agent, { stream, data, position }) {
    await agent.get(stream).it.write({ type: "write", data: bytesOf(data), position });
  },
  async seek(agent, { stream, position }) {
    await agent.get(stream).it.seek(position);
  },
  async truncate(agent, { stream, size }) {
    await agent.get(stream).it.truncate(size);
  },
  async close(agent, { stream }) {
    await agent.get(stream).it.close();
    agent.shut(agent.get(stream));
  },
  async abort(agent, { stream }) {
    await agent.get(stream).it.abort();
    agent.shut(agent.get(stream));
  },
  async createSyncAccessHandle(agent, { file, mode = "readwrite", as }) {
    const { it, place } = agent.get(file);
    const lock = mode === "readwrite" ? "exclusive" : "read-only";
    agent.open(as, "access handle", await it.createSyncAccessHandle({ mode }), place, lock);
  },
  async syncRead(agent, { sync, len, at }) {
    const bytes = new Uint8Array(len);
    const count = agent.get(sync).it.read(bytes, at === undefined ? {} : { at });
    return textOfBytes(bytes.subarray(0, count));
  },
  async syncWrite(agent, { sync, data, at }) {
    return String(agent.get(sync).it.write(bytesOf(data), at === undefined ? {} : { at }));
  },
  async syncTruncate(agent, { sync, size }) {
    await agent.get(sync).it.truncate(size);
  },
  async syncGetSize(agent, { sync }) {
    return String(await agent.get(sync).it.getSize());
  },
  async syncFlush(agent, { sync }) {
    await agent.get(sync).it.flush();
  },
  async syncClose(agent, { sync }) {
    await agent.get(sync).it.close();
    agent.shut(agent.get(sync));
  },
  async persist(agent, { bucket }) {
    const { refusal, flag } = await agent.ask({ ask: "persist", bucket });
    if (refusal) throw refusal;
    return String(flag);
  },
  async persisted(agent, { bucket }) {
    return String(await (await agent.storage(bucket)).persisted());
  },
  async estimate() {
    const { usage, quota } = await navigator.storage.estimate();
    return `${usage} ${quota}`;
  },
  async moment(agent, { ms }) {
    await agent.clock.set(ms);
  },
  async post(agent, { tag }) {
    agent.post(tag);
  },
  async await(agent, { tag }) {
    const { refusal } = await agent.ask({ ask: "await", tag });
    if (refusal) throw refusal;
  },
};
