// How many times a second a page of 4 KiB is written through an access handle and flushed. The same in Node and in a browser's worker.

const PAGE = 4096;

// `times` pages at drawn places of a file of `pages` pages, `rounds` times over: each round's writes and flushes a second.
export async function flushesPerSecond(navigator, { pages, times, rounds }) {
  const root = await navigator.storage.getDirectory();
  const file = await root.getFileHandle("measured", { create: true });
  const handle = await file.createSyncAccessHandle();
  const bytes = new Uint8Array(PAGE);
  const found = [];
  try {
    handle.truncate(pages * PAGE);
    handle.flush();
    for (let round = 0; round < rounds; round += 1) found.push(oneRound(handle, bytes, { pages, times, seed: round + 1 }));
  } finally {
    handle.close();
  }
  return found;
}

function oneRound(handle, bytes, { pages, times, seed }) {
  let drawn = seed;
  const from = performance.now();
  for (let time = 0; time < times; time += 1) {
    drawn = (drawn * 1664525 + 1013904223) % 4294967296;
    for (let at = 0; at < PAGE; at += 512) bytes[at + (drawn % 512)] = drawn >>> 8;
    handle.write(bytes, { at: (drawn % pages) * PAGE });
    handle.flush();
  }
  return times / ((performance.now() - from) / 1000);
}
