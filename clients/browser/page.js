// The page: takes a script and the transcript that `opfs` printed, plays the script in this browser, and shows both.

import { textOfLine } from "./compare.js";
import { Play, cleanOrigin } from "./play.js";
import { Refusal, readScript } from "./script.js";
import { Table } from "./table.js";

// By folder, as seen from the page.
const EXAMPLES = {
  "../../examples": ["buckets", "every_word", "note", "pages", "read_only", "sharing_1", "sharing_2", "sharing_3", "tags", "two_tabs"],
  differences: [
    "bucket_names", "ended_stream", "locked_below", "order_of_values", "other_kind", "quota_of_a_handle", "read_past_the_end", "refused_write",
    "removed_file", "removed_while_listed", "snapshot", "stamp_of_a_close", "swap_file", "write_of_nothing", "zero_in_a_name",
  ],
};
const WARNING = "All files and buckets that this browser keeps for this page's origin are removed before the run. Go on?";

const at = (id) => document.getElementById(id);
let playing = null;

function say(text, kind = "") {
  at("summary").textContent = text;
  at("summary").className = kind;
}

function showResult({ compared, differing }) {
  const count = differing.length;
  if (compared === 0) return say("Done. Nothing of opfs is there to compare.");
  say(`${compared} lines compared, ${count} ${count === 1 ? "differs" : "differ"}`, count === 0 ? "same" : "differs");
}

// Plays a script and gives its lines, and where they differ; a script that is refused gives its refusal.
async function play(script, printed, { takesTurns = false } = {}) {
  playing?.stop();
  at("transcript").textContent = "";
  const lines = [];
  let agents;
  try {
    agents = readScript(script);
  } catch (refusal) {
    if (!(refusal instanceof Refusal)) throw refusal;
    say(`opfs: script refused: ${refusal.message}`, "differs");
    return { refusal: refusal.message };
  }
  const table = new Table(at("tables"), agents, printed);
  const tell = (line) => {
    lines.push(textOfLine(line));
    table.add(line);
    globalThis.lineTold?.(lines.at(-1));
  };
  say("Running ..");
  const mine = new Play(agents, { tell, takesTurns });
  playing = mine;
  await mine.run();
  at("transcript").textContent = lines.join("\n");
  if (playing !== mine) return { lines };
  const result = table.finish();
  showResult(result);
  return { lines, ...result };
}

async function playFields() {
  if (!confirm(WARNING)) return;
  try {
    playing?.stop();
    say("Removing what is stored ..");
    await cleanOrigin();
    await play(at("script").value, at("printed").value, { takesTurns: at("turns").checked });
  } catch (error) {
    say(String(error), "differs");
  }
}

async function takeExample() {
  const path = at("example").value;
  if (!path) return;
  const [script, printed] = await Promise.all(["json", "txt"].map(async (end) => {
    const answer = await fetch(`${path}.${end}`);
    return answer.ok ? answer.text() : "";
  }));
  at("script").value = script;
  at("printed").value = printed;
  say(script ? "" : "The examples are not there: serve the page from the repository's root.", "differs");
}

function takeDrops(field) {
  field.addEventListener("dragover", (event) => event.preventDefault());
  field.addEventListener("drop", async (event) => {
    const [file] = event.dataTransfer.files;
    if (!file) return;
    event.preventDefault();
    try {
      field.value = new TextDecoder("utf-8", { fatal: true, ignoreBOM: true }).decode(await file.arrayBuffer());
    } catch {
      say(`${file.name} is no text in UTF-8`, "differs");
    }
  });
}

function offerExamples() {
  for (const [folder, names] of Object.entries(EXAMPLES)) {
    const group = document.createElement("optgroup");
    group.label = folder.split("/").at(-1);
    group.append(...names.map((it) => new Option(it, `${folder}/${it}`)));
    at("example").append(group);
  }
}

function start() {
  offerExamples();
  at("example").addEventListener("change", takeExample);
  at("run").addEventListener("click", playFields);
  takeDrops(at("script"));
  takeDrops(at("printed"));
  if (!navigator.storage?.getDirectory) say("This page has no private file system: open it by https, or from http://localhost.", "differs");
}

// For `clients/browser/run`, which has a browser of its own.
globalThis.playScript = async (script, printed, options) => {
  at("script").value = script;
  at("printed").value = printed;
  await cleanOrigin();
  return play(script, printed, options);
};

start();
