// What a call throws: the Standards' exceptions, and a fault where the conversation itself fails.

// Names of refusals that are the Standards' own, beside TypeError.
const STANDARD = [
  "InvalidModificationError", "InvalidStateError", "NoModificationAllowedError", "NotFoundError", "QuotaExceededError", "SecurityError",
  "TypeMismatchError",
];

// Refusals of this store alone, each under a name that exceptions of the web have.
const OWN = {
  DataFull: "QuotaExceededError",
  DiskFault: "UnknownError",
  MetaFull: "QuotaExceededError",
  NameLimit: "OperationError",
  Stuck: "OperationError",
};

// The conversation failed: `reason` is a word of docs/SERVE.md as `Ended`, or `Gone` or `Odd`, after which no call is answered any more.
export class StoreFault extends Error {
  constructor(reason, text) {
    super(`${reason}: ${text}`);
    this.reason = reason;
  }

  get name() {
    return "StoreFault";
  }
}

// The exception for an answer that is a refusal, null where it is none. Its `reply` is the answer, with what it carries.
export function refusalOf(word, reply) {
  const name = reply.split(" ", 1)[0];
  const text = `${word} was refused: ${reply}`;
  const isKnown = STANDARD.includes(name) || Object.hasOwn(OWN, name);
  if (!isKnown && name !== "TypeError") return null;
  const refusal = name === "TypeError" ? new TypeError(text) : new DOMException(text, OWN[name] ?? name);
  return Object.assign(refusal, { reply });
}

// Makes a call at once, and settles its promise in a later turn of the event loop, so that timers and others have their turns too.
export function later(call) {
  return new Promise((done, fail) => {
    let settle;
    try {
      const value = call();
      settle = () => done(value);
    } catch (why) {
      settle = () => fail(why);
    }
    setImmediate(settle);
  });
}
