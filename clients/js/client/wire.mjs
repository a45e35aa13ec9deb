// The lines that go to `opfs_serve` and come from it. Both ways are pipes with a name, opened so that a read waits: so a call can be answered at once.

import { execFileSync, spawn } from "node:child_process";
import { closeSync, constants, mkdtempSync, openSync, read, readSync, rmSync, writeSync } from "node:fs";
import { tmpdir } from "node:os";
import { join } from "node:path";
import { promisify } from "node:util";
import { StoreFault } from "./refusals.mjs";

const ROOM = 262_144;
const MOST = 4_194_304;
const LINE_FEED = 10;
const readLater = promisify(read);

// Both ends of a pipe. Someone has to read before a write end can be opened without waiting, and the other way round.
function endsOf(path) {
  const first = openSync(path, constants.O_RDONLY | constants.O_NONBLOCK);
  const into = openSync(path, "w");
  const out = openSync(path, "r");
  closeSync(first);
  return { into, out };
}

// Makes two pipes, whose names are gone again before anything goes through them.
function makePipes() {
  const folder = mkdtempSync(join(tmpdir(), "opfs-js-"));
  try {
    const paths = ["heard", "told"].map((it) => join(folder, it));
    execFileSync("mkfifo", ["-m", "600", ...paths]);
    return paths.map(endsOf);
  } finally {
    rmSync(folder, { recursive: true });
  }
}

export class Wire {
  #child;
  #into;
  #out;
  #bytes = Buffer.allocUnsafeSlow(ROOM);
  #from = 0;
  #seen = 0;
  #to = 0;
  #last = "";

  constructor(program, image) {
    const [heard, told] = makePipes();
    this.#into = heard.into;
    this.#out = told.out;
    try {
      this.#child = spawn(program, [image], { stdio: [heard.out, told.into, "inherit"] });
    } finally {
      closeSync(heard.out);
      closeSync(told.into);
    }
    // A program that ends without a word leaves its child without an input, so that it ends too.
    this.#child.unref();
    this.ended = new Promise((done) => {
      this.#child.once("error", (error) => done({ status: null, signal: null, error }));
      this.#child.once("exit", (status, signal) => done({ status, signal }));
    });
  }

  get pid() {
    return this.#child.pid;
  }

  // The last line that came.
  get last() {
    return this.#last;
  }

  say(text) {
    const size = Buffer.byteLength(text);
    let done = this.#put(text);
    if (done === size) return;
    const bytes = Buffer.from(text);
    while (done < size) done += this.#put(bytes.subarray(done));
  }

  #put(part) {
    try {
      return writeSync(this.#into, part);
    } catch (error) {
      if (error.code === "EINTR" || error.code === "EAGAIN") return 0;
      throw new StoreFault("Gone", `opfs_serve takes no line (${error.code})`);
    }
  }

  // The next line without its end, null where none comes any more. Waits for it.
  line() {
    for (;;) {
      const line = this.#found();
      if (line !== null || this.#count(this.#read()) === 0) return line;
    }
  }

  // The same, while others have their turns.
  async lineLater() {
    for (;;) {
      const line = this.#found();
      if (line !== null) return line;
      const { bytesRead } = await readLater(this.#out, this.#bytes, this.#to, this.#bytes.length - this.#to, null);
      if (this.#count(bytesRead) === 0) return null;
    }
  }

  // A line that is there already; otherwise there is room for more.
  #found() {
    const found = this.#bytes.subarray(this.#seen, this.#to).indexOf(LINE_FEED);
    if (found >= 0) return this.#take(this.#seen + found);
    this.#seen = this.#to;
    this.#makeRoom();
    return null;
  }

  #count(more) {
    this.#to += more;
    return more;
  }

  #take(end) {
    const line = this.#bytes.toString("utf8", this.#from, end);
    this.#from = this.#seen = end + 1;
    if (this.#from === this.#to) this.#from = this.#seen = this.#to = 0;
    this.#last = line;
    return line;
  }

  // Moves what is there to the front where the room is used up; a line that takes it all gets twice as much.
  #makeRoom() {
    if (this.#to < this.#bytes.length) return;
    const moved = this.#from;
    if (moved === 0 && this.#bytes.length >= MOST) throw new StoreFault("Odd", "opfs_serve told a line that is too long");
    const bytes = moved === 0 ? Buffer.allocUnsafeSlow(2 * this.#bytes.length) : this.#bytes;
    this.#bytes.copy(bytes, 0, moved, this.#to);
    this.#bytes = bytes;
    this.#from = 0;
    this.#seen -= moved;
    this.#to -= moved;
  }

  #read() {
    for (;;) {
      try {
        return readSync(this.#out, this.#bytes, this.#to, this.#bytes.length - this.#to, null);
      } catch (error) {
        if (error.code !== "EINTR") throw new StoreFault("Gone", `opfs_serve tells no line (${error.code})`);
      }
    }
  }

  // Tells the child that no line comes any more; what it says then can still be read.
  finish() {
    if (this.#into === null) return;
    closeSync(this.#into);
    this.#into = null;
  }

  // Whether this program goes on for the child alone, as it does while someone waits for its answer.
  hold(isWanted) {
    if (isWanted) this.#child.ref();
    else this.#child.unref();
  }

  // Waits for the child's end, and lets go of all.
  async leave() {
    this.finish();
    if (this.#out !== null) closeSync(this.#out);
    this.#out = null;
    this.#child.ref();
    return this.ended;
  }

  kill() {
    this.#child.kill("SIGKILL");
  }
}
