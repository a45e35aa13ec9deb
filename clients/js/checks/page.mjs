// The page of a browser that plays behaviours: it is the window of its origin, and has a worker for each of two other agents.

import { Player, playAll } from "../behaviours.mjs";

// A worker that answers one question at a time.
function workerThat() {
  const worker = new Worker(new URL("worker.mjs", import.meta.url), { type: "module" });
  return (question) => new Promise((done, fail) => {
    worker.onmessage = ({ data }) => done(data);
    worker.onerror = ({ message }) => fail(new Error(message || "the worker did not start"));
    worker.postMessage(question);
  });
}

globalThis.playBehaviours = async () => {
  const [a, b] = [workerThat(), workerThat()].map((ask) => ({ play: (number, step) => ask({ number, step }) }));
  const values = [];
  await playAll({ a, b, page: new Player(navigator) }, (number, value) => (values[number] = value));
  return JSON.stringify(values);
};

globalThis.measureFlushes = async (options) => workerThat()({ options });
