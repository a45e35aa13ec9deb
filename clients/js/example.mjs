// A window and a worker of one origin. Run with the path of an image: node clients/js/example.mjs IMAGE
import { openStore } from "./opfs.mjs";

const origin = "https://a.example";
const store = await openStore(process.argv[2], { agents: [{ origin }, { origin }] });
const [page, worker] = store.agents;

const root = await page.navigator.storage.getDirectory();
const file = await root.getFileHandle("note", { create: true });
const stream = await file.createWritable();
await stream.write("first");
await stream.write({ type: "write", position: 5, data: new TextEncoder().encode(" words") });
await stream.close();
console.log(await (await file.getFile()).text());

const same = await (await worker.navigator.storage.getDirectory()).getFileHandle("note");
const handle = await same.createSyncAccessHandle();
await file.createWritable().catch((why) => console.log(why.name));
const bytes = new Uint8Array(5);
handle.read(bytes, { at: 6 });
handle.truncate(5);
handle.close();
console.log(new TextDecoder().decode(bytes));

for await (const [name, entry] of root) console.log(entry.kind, name, (await entry.getFile()).size);
console.log((await store.close()).status);
