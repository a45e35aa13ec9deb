// Plays a script: starts a worker for each agent, and keeps what agents share: tags, turns, and which locks are held.

const WAIT = 100;
const TRIES = 20;

// Removes an entry; a worker that has just been ended may hold a lock for a while.
async function removeFrom(root, name) {
  for (let left = TRIES; ; left -= 1) {
    try {
      return await root.removeEntry(name, { recursive: true });
    } catch (refusal) {
      if (refusal.name === "NotFoundError") return undefined;
      if (left === 0) throw refusal;
      await new Promise((done) => setTimeout(done, WAIT));
    }
  }
}

// Removes all files and buckets of this page's origin.
export async function cleanOrigin() {
  const root = await navigator.storage.getDirectory();
  const names = [];
  for await (const name of root.keys()) names.push(name);
  for (const name of names) await removeFrom(root, name);
  for (const name of (await navigator.storageBuckets?.keys()) ?? []) await navigator.storageBuckets.delete(name);
}

const textAt = async (path) => (await fetch(new URL(path, import.meta.url))).text();
const asDataUrl = (text) => `data:text/javascript;charset=utf-8,${encodeURIComponent(text)}`;

// The agent's modules as one `data:` URL: a worker that is made of it has an opaque origin.
async function opaqueSource() {
  const [agent, words, script] = await Promise.all(["agent.js", "words.js", "script.js"].map(textAt));
  const wordsUrl = asDataUrl(words.replace("./script.js", asDataUrl(script)));
  return asDataUrl(agent.replace("./words.js", wordsUrl));
}

// `persist` is a call of windows alone: an agent of an opaque origin asks it in a frame that has one too.
function persistInFrame() {
  const frame = document.createElement("iframe");
  frame.sandbox = "allow-scripts";
  frame.hidden = true;
  frame.srcdoc = `<script>navigator.storage.persist().then((flag) => ({ flag }), ({ name }) => ({ refusal: { name } }))
    .then((answer) => parent.postMessage(answer, "*"))</script>`;
  return new Promise((done) => {
    const take = ({ source, data }) => {
      if (source !== frame.contentWindow) return;
      removeEventListener("message", take);
      frame.remove();
      done(data);
    };
    addEventListener("message", take);
    document.body.append(frame);
  });
}

async function persistInPage(bucket, hasBuckets) {
  try {
    const isNamed = bucket !== undefined && hasBuckets;
    const storage = isNamed ? await navigator.storageBuckets.open(bucket) : navigator.storage;
    return { flag: await storage.persist() };
  } catch ({ name }) {
    return { refusal: { name } };
  }
}

const isFront = (front, path) => front.every((name, index) => name === path[index]);

export class Play {
  #agents;
  #tell;
  #takesTurns;
  #hasBuckets;
  #posted = new Set();
  #held = new Map();
  #queue = [];
  #holder = null;
  #finish;

  // `tell` gets each line as it comes: agent, step, word and answer.
  constructor(agents, { tell, takesTurns = false }) {
    this.#tell = tell;
    this.#takesTurns = takesTurns;
    const isNamed = agents.some((agent) => agent.steps.some((step) => (step.bucket ?? "default") !== "default"));
    this.#hasBuckets = !isNamed || "storageBuckets" in navigator;
    this.#agents = agents.map((it) => ({ ...it, party: it.key ?? `agent ${it.number}`, isLive: true, waits: null }));
  }

  // An origin that is the only one of its script has the page's own root, each of several a directory of its own in it.
  #folders({ key }) {
    const keys = [...new Set(this.#agents.map((it) => it.key).filter(Boolean))];
    return keys.length > 1 ? [`origin ${keys.indexOf(key) + 1}`] : [];
  }

  async run() {
    const hasOpaque = this.#agents.some((it) => it.key === null);
    const opaque = hasOpaque ? await opaqueSource() : null;
    const finished = new Promise((done) => (this.#finish = done));
    for (const agent of this.#agents) this.#start(agent, opaque);
    if (this.#agents.length === 0) this.#finish();
    await finished;
    this.stop();
  }

  stop() {
    for (const { worker } of this.#agents) worker?.terminate();
    this.#finish?.();
  }

  #start(agent, opaque) {
    const source = agent.key === null ? opaque : new URL("agent.js", import.meta.url);
    agent.worker = new Worker(source, { type: "module" });
    agent.worker.addEventListener("message", ({ data }) => this.#take(agent, data));
    agent.worker.addEventListener("error", ({ message }) => {
      this.#tell({ agent: agent.number, step: 0, word: "worker", answer: message || "did not start" });
      this.#end(agent);
    });
    const { steps } = agent;
    const folders = this.#folders(agent);
    agent.worker.postMessage({ steps, folders, hasBuckets: this.#hasBuckets, takesTurns: this.#takesTurns });
  }

  #take(agent, { ask, id, ...question }) {
    const reply = (answer = {}) => agent.worker.postMessage({ ...answer, id });
    const takes = {
      line: () => this.#line(agent, question),
      end: () => this.#end(agent),
      turn: () => this.#turn(agent, reply),
      await: () => this.#await(agent, question.tag, reply),
      persist: () => this.#persist(agent, question.bucket).then(reply),
      lock: () => reply({ lock: this.#lockAt(agent, question.place) }),
    };
    takes[ask]();
  }

  #line(agent, { step, word, answer, changes }) {
    this.#tell({ agent: agent.number, step, word, answer });
    for (const change of changes) this.#change(agent, change);
    this.#passTurn(agent);
  }

  #change(agent, { opened, closed, posted, place, lock }) {
    if (opened !== undefined) this.#held.set(`${agent.number}.${opened}`, { party: agent.party, ...place, lock });
    if (closed !== undefined) this.#held.delete(`${agent.number}.${closed}`);
    if (posted !== undefined) this.#post(agent, posted);
  }

  #end(agent) {
    agent.isLive = false;
    this.#passTurn(agent);
    this.#wakeStuck(agent.party);
    if (this.#agents.every((it) => !it.isLive)) this.#finish();
  }

  #turn(agent, reply) {
    this.#queue.push({ agent, reply });
    this.#passTurn(null);
  }

  // Ends this agent's turn, and gives the next one where nobody has it.
  #passTurn(agent) {
    if (this.#holder === agent) this.#holder = null;
    if (this.#holder !== null || this.#queue.length === 0) return;
    const next = this.#queue.shift();
    this.#holder = next.agent;
    next.reply();
  }

  #post({ party }, tag) {
    this.#posted.add(`${party} ${tag}`);
    for (const it of this.#agents) {
      if (it.party === party && it.waits?.tag === tag) this.#wake(it);
    }
  }

  #await(agent, tag, reply) {
    agent.waits = { tag, reply };
    if (this.#posted.has(`${agent.party} ${tag}`)) return this.#wake(agent);
    const others = this.#agents.filter((it) => it.party === agent.party && it.isLive && it !== agent);
    if (others.every((it) => it.waits)) return this.#wake(agent, "Stuck");
    this.#passTurn(agent);
  }

  #wake(agent, name) {
    const { reply } = agent.waits;
    agent.waits = null;
    reply(name ? { refusal: { name } } : {});
  }

  // Where all agents that are left wait, one of them is stuck.
  #wakeStuck(party) {
    const live = this.#agents.filter((it) => it.party === party && it.isLive);
    if (live.length > 0 && live.every((it) => it.waits)) this.#wake(live[0], "Stuck");
  }

  #persist(agent, bucket) {
    return agent.key === null ? persistInFrame() : persistInPage(bucket, this.#hasBuckets);
  }

  // The first lock that is held at a place or below it, with its count.
  #lockAt({ party }, { unit, path }) {
    const held = [...this.#held.values()].filter((it) => it.party === party && it.unit === unit && isFront(path, it.path));
    const [least] = held.map((it) => it.path.join("\0")).sort();
    const first = held.filter((it) => it.path.join("\0") === least);
    if (first.length === 0) return "";
    return `taken-${first[0].lock} ${first[0].lock === "exclusive" ? 0 : first.length}`;
  }
}
