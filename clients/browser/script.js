// Scripts: reads one, or refuses it for the first reason that holds, as `opfs` does (docs/FORMATS.md, section 1).

const MOST_BYTES = 16_777_216;
const MOST_LENGTH = 65_536;
const MOST_OF_ALL = 67_108_864;
const MOST_LEVELS = 127;
const MOST_AGENTS = 64;
const MOST_STEPS = 20_000;
const TUPLE_SCHEMES = ["http:", "https:", "ws:", "wss:", "ftp:"];

// Each word with its members; `?` marks one that may be absent.
const MEMBERS = {
  getDirectory: "bucket? as",
  getDirectoryHandle: "dir name create? as",
  getFileHandle: "dir name create? as",
  removeEntry: "dir name recursive?",
  values: "dir as",
  next: "iterator as",
  resolve: "dir entry",
  isSameEntry: "entry other",
  getFile: "file as",
  slice: "snapshot at len",
  createWritable: "file keepExistingData? as",
  write: "stream data position?",
  seek: "stream position",
  truncate: "stream size",
  close: "stream",
  abort: "stream",
  createSyncAccessHandle: "file mode? as",
  syncRead: "sync len at?",
  syncWrite: "sync data at?",
  syncTruncate: "sync size",
  syncGetSize: "sync",
  syncFlush: "sync",
  syncClose: "sync",
  persist: "bucket?",
  persisted: "bucket?",
  estimate: "",
  moment: "ms",
  post: "tag",
  await: "tag",
};

const isObject = (it) => typeof it === "object" && it !== null && !Array.isArray(it);
const isText = (it) => typeof it === "string";
const isFlag = (it) => typeof it === "boolean";
const isWhole = (it) => Number.isSafeInteger(it) && it >= 0 && !Object.is(it, -0);
const isShort = (it) => isText(it) && it !== "" && byteLength(it) <= 64;

const FORMS = {
  name: isText,
  bucket: isText,
  create: isFlag,
  recursive: isFlag,
  keepExistingData: isFlag,
  mode: (it) => it === "readwrite" || it === "read-only",
  position: isWhole,
  size: isWhole,
  at: isWhole,
  ms: isWhole,
  len: (it) => isWhole(it) && it <= MOST_LENGTH,
  data: (it) => dataLength(it) <= MOST_BYTES,
};

// Why a script is refused, in the words of `opfs`.
export class Refusal extends Error {}

function byteLength(text) {
  return new TextEncoder().encode(text).length;
}

// How many bytes a `data` stands for; NaN where it has none of the three forms.
function dataLength(data) {
  if (isText(data)) return byteLength(data);
  if (!isObject(data)) return NaN;
  const members = Object.keys(data).sort().join(" ");
  if (members === "hex") {
    return isText(data.hex) && /^(?:[0-9a-f]{2})*$/i.test(data.hex) ? data.hex.length / 2 : NaN;
  }
  const isFill = members === "count fill" && isWhole(data.fill) && data.fill <= 255 && isWhole(data.count);
  return isFill ? data.count : NaN;
}

// The bytes that a `data` stands for.
export function bytesOf(data) {
  if (isText(data)) return new TextEncoder().encode(data);
  if (data.hex === undefined) return new Uint8Array(data.count).fill(data.fill);
  return Uint8Array.from(data.hex.match(/../g) ?? [], (pair) => parseInt(pair, 16));
}

function isTooDeep(text) {
  let level = 0;
  for (const sign of text.replace(/"(?:[^"\\]|\\.)*"/g, "").match(/[[\]{}]/g) ?? []) {
    level += "[{".includes(sign) ? 1 : -1;
    if (level > MOST_LEVELS) return true;
  }
  return false;
}

// A number that has a sign, a fraction or an exponent becomes NaN, which no member takes.
function reviveValue(key, value, context) {
  const isOdd = value === Infinity || value === -Infinity || !key.isWellFormed();
  if (isOdd || (isText(value) && !value.isWellFormed())) throw new Refusal("NotJson");
  return typeof value === "number" && /\D/.test(context?.source ?? "0") ? NaN : value;
}

function parseJson(text) {
  try {
    if (!isTooDeep(text)) return JSON.parse(text, reviveValue);
  } catch {
    // refused below
  }
  throw new Refusal("NotJson");
}

// The key of an origin, null for an opaque one; undefined where it is no URL, or its key is too long.
function keyOf(origin) {
  if (!URL.canParse(origin)) return undefined;
  const { protocol, host } = new URL(origin);
  if (!TUPLE_SCHEMES.includes(protocol)) return null;
  const key = `${protocol}//${host}`;
  return byteLength(key) <= 255 ? key : undefined;
}

function isStep(step) {
  const members = MEMBERS[step.do].split(" ").filter(Boolean);
  const known = new Map(members.map((it) => [it.replace("?", ""), it.endsWith("?")]));
  const isKnown = Object.keys(step).every((it) => it === "do" || known.has(it));
  return isKnown && [...known].every(([name, mayMiss]) =>
    Object.hasOwn(step, name) ? (FORMS[name] ?? isShort)(step[name]) : mayMiss);
}

function checkStep(step, place) {
  if (!isObject(step) || !isText(step.do)) throw new Refusal(`BadShape ${place}`);
  if (!Object.hasOwn(MEMBERS, step.do)) throw new Refusal(`UnknownStep ${place}`);
  if (!isStep(step)) throw new Refusal(`BadShape ${place}`);
}

function isAgent(agent) {
  if (!isObject(agent) || !isText(agent.origin) || !Array.isArray(agent.steps)) return false;
  const isKnown = Object.keys(agent).every((it) => ["origin", "steps", "grants"].includes(it));
  const grants = Object.hasOwn(agent, "grants") ? agent.grants : [];
  return isKnown && Array.isArray(grants) && grants.every((it) => it === "persistent-storage");
}

function readAgent(agent, number) {
  if (!isAgent(agent)) throw new Refusal(`BadShape ${number} 0`);
  const key = keyOf(agent.origin);
  if (key === undefined) throw new Refusal(`BadOrigin ${number}`);
  agent.steps.forEach((step, index) => checkStep(step, `${number} ${index + 1}`));
  return { number, key, steps: agent.steps, hasGrant: (agent.grants ?? []).length > 0 };
}

function isTooMany(agents) {
  const steps = agents.flatMap((it) => it.steps);
  const all = steps.reduce((sum, it) => sum + (it.len ?? 0) + ("data" in it ? dataLength(it.data) : 0), 0);
  return agents.length > MOST_AGENTS || steps.length > MOST_STEPS || all > MOST_OF_ALL;
}

// The agents of a script: number, key or null, steps, and whether the grant is there.
export function readScript(text) {
  if (byteLength(text) > MOST_BYTES) throw new Refusal("TooMany");
  const top = parseJson(text);
  const isTop = isObject(top) && Object.keys(top).join() === "agents" && Array.isArray(top.agents);
  if (!isTop) throw new Refusal("BadShape 0 0");
  const agents = top.agents.map((agent, index) => readAgent(agent, index + 1));
  if (isTooMany(agents)) throw new Refusal("TooMany");
  return agents;
}
