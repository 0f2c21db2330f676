// A running `serve`, which ends when its standard input does, and so with the process that started it.
"use strict";

const { spawn } = require("node:child_process");
const { EventEmitter } = require("node:events");
const { createInterface } = require("node:readline");
const { ToxiEnded, ToxiTimeout, errorOf } = require("./errors.js");
const { environment } = require("./program.js");

// `serve` ends within 2 seconds of the end of its input, or some more with thousands of links. A busy machine gets more, in milliseconds.
const STOP_LIMIT = 10_000;

class Process {
  constructor(command) {
    this.lines = [];
    this.said = "";
    this.addresses = new Map();
    this.links = [];
    this.totals = [];
    this.hasEnded = false;
    this.changes = new EventEmitter().setMaxListeners(0);
    this.child = spawn(command[0], command.slice(1), { env: environment(), stdio: "pipe" });
    this.ended = new Promise((resolve) => this.watch(resolve));
  }

  watch(resolve) {
    const end = (status) => {
      this.status = status;
      this.hasEnded = true;
      this.changes.emit("change");
      resolve();
    };
    this.child.stderr.setEncoding("utf8").on("data", (text) => (this.said += text));
    this.child.stdin.on("error", () => {}); // It has ended already.
    const lines = createInterface({ input: this.child.stdout, crlfDelay: Infinity }).on("line", (line) => this.note(line));
    let unread = true;
    lines.on("close", () => (unread = false));
    this.child.on("error", (error) => end(error.message));
    this.child.on("close", (code, signal) => (unread ? lines.once("close", () => end(code ?? signal)) : end(code ?? signal)));
  }

  note(line) {
    this.lines.push(line);
    const { event, proxy, link, ...told } = JSON.parse(line);
    if (event === "listening") this.addresses.set(proxy, told.address);
    if (event === "link") this.links.push({ proxy, number: link, up: told.up, upEnd: told.up_end, down: told.down, downEnd: told.down_end });
    if (event === "total") this.totals.push({ proxy, ...told });
    this.changes.emit("change");
  }

  // Waits until a function finds something in what was printed. Rejects where the program has ended without it, or the time is up.
  waitFor(what, find, timeout) {
    return new Promise((resolve, reject) => {
      const done = (settle, value) => {
        clearTimeout(timer);
        this.changes.off("change", look);
        settle(value);
      };
      const look = () => {
        const found = find();
        if (found !== undefined) done(resolve, found);
        else if (this.hasEnded) done(reject, new ToxiEnded(`toxi has ended without ${what}`));
      };
      const timer = setTimeout(() => done(reject, new ToxiTimeout(`not within ${timeout} ms: ${what}`)), timeout);
      this.changes.on("change", look);
      look();
    });
  }

  closeInput() {
    this.child.stdin.end();
  }

  // Ends its input, and kills it if it goes on. What it printed has been read then.
  async stop() {
    this.closeInput();
    const timer = setTimeout(() => this.child.kill("SIGKILL"), STOP_LIMIT);
    await this.ended;
    clearTimeout(timer);
  }

  // What an ended program has said.
  fault() {
    return errorOf(this.said, this.status);
  }
}

module.exports = { Process, STOP_LIMIT };
