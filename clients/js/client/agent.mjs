// An agent of the store: makes its calls by the words of scripts, and keeps the names of its variables.

import { textOf } from "./convert.mjs";
import { later } from "./refusals.mjs";
import { navigatorOf } from "./storage.mjs";

const MOST_TAG = 64;

// What holds a variable's name for as long as an object of this program needs what it names.
export class Variable {
  #weight = null;

  constructor(agent, name) {
    this.agent = agent;
    this.name = name;
  }

  // Lets this program's collector see how much the child keeps for the variable, so that it comes in time. The bytes are never touched.
  weigh(size) {
    try {
      this.#weight = new ArrayBuffer(size);
    } catch {
      this.#weight = null;
    }
  }

  // Makes a call on what the variable names, which stands in the step as `member`.
  ask(word, member, more, data) {
    return this.agent.ask(word, { [member]: this.name, ...more }, data);
  }
}

// The names of an agent's variables. One whose object is gone is given out again: what it named goes when it is bound anew.
class Names {
  #count = 0;
  #free = [];
  #gone = new FinalizationRegistry((name) => this.#free.push(name));

  take() {
    return this.#free.pop() ?? `v${(this.#count += 1)}`;
  }

  giveBack(name) {
    this.#free.push(name);
  }

  follow(variable) {
    this.#gone.register(variable, variable.name);
  }

  get count() {
    return this.#count;
  }
}

export class Agent {
  #store;
  #number;
  #clock;
  #told = null;
  #names = new Names();
  #open = new Set();

  // `clock` gives the time in milliseconds; null: only `moment` sets it.
  constructor(store, number, clock) {
    this.#store = store;
    this.#number = number;
    this.#clock = clock;
    this.navigator = navigatorOf(this);
  }

  get number() {
    return this.#number;
  }

  // How many names of variables there are, which bounds what the store keeps for objects that are gone.
  get names() {
    return this.#names.count;
  }

  // Makes a call, and gives what its answer has behind `ok`; a refusal is thrown. `data` is the JSON text of that member.
  ask(word, members, data) {
    return this.#store.ask(this.#number, word, members, data);
  }

  // The same for a call that may give a file a time stamp.
  stamp(word, members, data) {
    this.#tellTime();
    return this.ask(word, members, data);
  }

  #tellTime() {
    if (this.#clock === null) return;
    const now = Math.max(0, Math.floor(this.#clock()));
    if (now !== this.#told) this.ask("moment", { ms: now });
    this.#told = now;
  }

  // Makes a call that binds a variable: the variable, and the rest of the answer.
  bind(word, members, { stamps = false } = {}) {
    const name = this.#names.take();
    try {
      const call = { ...members, as: name };
      const answer = stamps ? this.stamp(word, call) : this.ask(word, call);
      const variable = new Variable(this, name);
      this.#names.follow(variable);
      return { variable, answer };
    } catch (why) {
      this.#names.giveBack(name);
      throw why;
    }
  }

  // An open stream or access handle keeps its name: nothing ends it but its own call, or the agent's end.
  keep(variable) {
    this.#open.add(variable);
  }

  letGo(variable) {
    this.#open.delete(variable);
  }

  // Sets the agent's clock, which a clock of its own would set again.
  moment(ms) {
    this.#clock = null;
    return later(() => void this.ask("moment", { ms }));
  }

  // Posts a tag for the agents of its origin.
  post(tag) {
    return later(() => this.#store.post(this.#number, tagOf(tag)));
  }

  // Waits until the tag is posted; meanwhile the agent makes no other call.
  awaitTag(tag) {
    try {
      return this.#store.await(this.#number, tagOf(tag));
    } catch (why) {
      return Promise.reject(why);
    }
  }

  // Ends the agent: its open streams are aborted, what its open access handles did not flush is taken back. Gives the lines of it.
  end() {
    return later(() => this.#store.end(this.#number));
  }
}

function tagOf(tag) {
  const text = textOf(tag);
  const size = Buffer.byteLength(text);
  if (size === 0 || size > MOST_TAG) throw new TypeError(`a tag has 1 to ${MOST_TAG} bytes`);
  return text;
}

export function clockOf(clock = Date.now) {
  if (clock !== null && typeof clock !== "function") throw new TypeError("a clock is a function, or null");
  return clock;
}
