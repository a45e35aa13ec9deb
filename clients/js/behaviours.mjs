// Worked behaviours of the Standard: what is called, and what comes of it. They run unchanged in Node over `opfs_serve`, and in Chromium's workers.
//
// `says(what, wants, calls, odd)` adds one to the table: `wants` is the Standard's value, and `calls` gives a value from a directory `dir` of its own,
// the agent's `navigator` and its `root`. Calls of several agents are a list of [agent, calls], made one after another, which gives a list; `mine`
// stays an agent's from one to the next. The agent "page" is a window, the others are workers. Where this store or Chromium answers otherwise `odd`
// has `row`, a case of the table in the repository's README, and what comes `here` or `there`.

import { BEHAVIOURS, told } from "./behaviours/table.mjs";
import "./behaviours/entries.mjs";
import "./behaviours/contents.mjs";
import "./behaviours/holding.mjs";

export { BEHAVIOURS };

// An agent that makes its calls of behaviours.
export class Player {
  #navigator;
  #number = -1;
  #mine = {};

  constructor(navigator) {
    this.#navigator = navigator;
  }

  async play(number, step) {
    if (number !== this.#number) this.#mine = {};
    this.#number = number;
    const root = await this.#navigator.storage.getDirectory();
    const dir = await root.getDirectoryHandle(`behaviour ${number}`, { create: true });
    const [, calls] = BEHAVIOURS[number].steps[step];
    return told(() => calls({ navigator: this.#navigator, root, dir, mine: this.#mine }));
  }
}

// Plays all behaviours with these players, and tells what came of each.
export async function playAll(players, tell) {
  for (const [number, { steps, isList }] of BEHAVIOURS.entries()) {
    const values = [];
    for (const [step, [agent]] of steps.entries()) values.push(await players[agent].play(number, step));
    tell(number, isList ? values : values[0]);
  }
}
