// `navigator.storage` and `navigator.storageBuckets` of an agent.

import { textOf, wants } from "./convert.mjs";
import { FileSystemDirectoryHandle } from "./handles.mjs";
import { checkKey, KEY } from "./keys.mjs";
import { later } from "./refusals.mjs";

// The calls of a bucket; undefined is the default one.
function rootOf(agent, bucket) {
  return new FileSystemDirectoryHandle(KEY, agent.bind("getDirectory", { bucket }).variable, "");
}

const flagOf = (agent, word, bucket) => agent.ask(word, { bucket }) === "true";

export class StorageManager {
  #agent;

  constructor(key, agent) {
    checkKey(key);
    this.#agent = agent;
  }

  getDirectory() {
    return later(() => rootOf(this.#agent));
  }

  persist() {
    return later(() => flagOf(this.#agent, "persist"));
  }

  persisted() {
    return later(() => flagOf(this.#agent, "persisted"));
  }

  estimate() {
    return later(() => {
      const [usage, quota] = this.#agent.ask("estimate", {}).split(" ").map(Number);
      return { quota, usage };
    });
  }

  get [Symbol.toStringTag]() {
    return "StorageManager";
  }
}

export class StorageBucket {
  #agent;
  #name;

  constructor(key, agent, name) {
    checkKey(key);
    this.#agent = agent;
    this.#name = name;
  }

  get name() {
    return this.#name;
  }

  getDirectory() {
    return later(() => rootOf(this.#agent, this.#name));
  }

  persist() {
    return later(() => flagOf(this.#agent, "persist", this.#name));
  }

  persisted() {
    return later(() => flagOf(this.#agent, "persisted", this.#name));
  }

  get [Symbol.toStringTag]() {
    return "StorageBucket";
  }
}

export class StorageBucketManager {
  #agent;

  constructor(key, agent) {
    checkKey(key);
    this.#agent = agent;
  }

  // A bucket is there once it has a directory; here the store judges its name alone.
  open(...list) {
    return later(() => {
      const agent = this.#agent;
      wants(list, 1);
      const name = textOf(list[0]);
      flagOf(agent, "persisted", name);
      return new StorageBucket(KEY, agent, name);
    });
  }

  get [Symbol.toStringTag]() {
    return "StorageBucketManager";
  }
}

export function navigatorOf(agent) {
  return Object.freeze({ storage: new StorageManager(KEY, agent), storageBuckets: new StorageBucketManager(KEY, agent) });
}
