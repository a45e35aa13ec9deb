// A dedicated worker of the page: plays its steps, or measures.

import { Player } from "../behaviours.mjs";
import { flushesPerSecond } from "./flushes.mjs";

const player = new Player(navigator);

addEventListener("message", async ({ data: { number, step, options } }) => {
  postMessage(options ? await flushesPerSecond(navigator, options) : await player.play(number, step));
});
