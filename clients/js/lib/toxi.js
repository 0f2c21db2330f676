// `Toxi`: a `toxi serve` process in front of the services of a test.
"use strict";

const { mkdir, mkdtemp, readdir, rm, writeFile } = require("node:fs/promises");
const { tmpdir } = require("node:os");
const { join } = require("node:path");
const { populateText, proxyList, scriptText, seedOf, serveOptions } = require("./config.js");
const { ToxiTimeout } = require("./errors.js");
const { HeldPorts } = require("./ports.js");
const { Process } = require("./process.js");
const { answerOf, foundProgram } = require("./program.js");
const { runReport } = require("./report.js");

// A clone's ./toxi compiles itself first. In milliseconds.
const START_TIMEOUT = 300_000;

class Toxi {
  #options;
  #proxies;
  #program;
  #runs = [];
  #addresses = new Map();
  #held = new HeldPorts();
  #isStopped = false;
  // Serialises what starts and ends the program.
  #changing = Promise.resolve();

  constructor(options) {
    this.#options = { startTimeout: START_TIMEOUT, ...options };
    this.#proxies = proxyList(options.proxies);
    this.seed = seedOf(options);
  }

  static async start(options) {
    const toxi = new Toxi(options);
    try {
      toxi.#program = await foundProgram(options.program, toxi.#options.startTimeout);
      await toxi.#serve(options.rules ?? []);
    } catch (error) {
      await toxi.stop();
      throw error;
    }
    return toxi;
  }

  get #run() {
    return this.#runs.at(-1);
  }

  get lines() {
    return [...this.#run.process.lines];
  }

  address(proxy) {
    const address = this.#addresses.get(proxy);
    if (address === undefined) throw unknown(proxy, this.#addresses.keys());
    return address;
  }

  url(proxy) {
    return `http://${this.address(proxy)}`;
  }

  links(proxy) {
    this.#requireKnown(proxy);
    return this.#run.process.links.filter((link) => link.proxy === proxy);
  }

  async waitForLink(proxy, number, timeout = 5000) {
    this.#requireKnown(proxy);
    const { process } = this.#run;
    const find = () => process.links.find((link) => link.proxy === proxy && link.number === number);
    return process.waitFor(`the end of link ${number} of ${proxy}`, find, timeout);
  }

  restart(rules) {
    return this.#change(() => this.#serve(rules));
  }

  down() {
    return this.#change(() => this.#endRun());
  }

  up() {
    return this.#change(() => (this.#run.process.hasEnded ? this.#serve(this.#options.rules ?? []) : undefined));
  }

  async wait(timeout = 10_000) {
    const { process } = this.#run;
    await process.waitFor("the end of toxi", () => (process.hasEnded ? true : undefined), timeout);
    if (process.status !== 0) throw process.fault();
    return [...process.totals];
  }

  async logs() {
    const { log } = this.#run;
    return log === undefined ? [] : (await readdir(log)).filter((name) => name.endsWith(".log")).map((name) => join(log, name));
  }

  report() {
    return this.#runs.map((run) => runReport(run, this.seed)).join("\n");
  }

  stop() {
    return this.#inTurn(async () => {
      this.#isStopped = true;
      await this.#run?.process.stop();
      this.#held.release();
    });
  }

  #inTurn(work) {
    const done = this.#changing.then(work);
    this.#changing = done.catch(() => {});
    return done;
  }

  #change(work) {
    return this.#inTurn(() => {
      if (this.#isStopped) throw new Error("it was stopped");
      return work();
    });
  }

  // Checks the rules, ends what runs, and starts the next run at the same addresses. Where the rules are wrong, what runs goes on.
  async #serve(rules) {
    const number = this.#runs.length + 1;
    const folder = this.#options.directory ?? (await mkdtemp(join(tmpdir(), "toxi-")));
    try {
      const run = await this.#checkedRun(rules, folder, number > 1 ? `-${number}` : "");
      await this.#endRun();
      run.process = new Process(run.command);
      this.#runs.push(run);
      this.#options.rules = rules;
      await this.#waitForListeners(run.process);
    } finally {
      if (this.#options.directory === undefined) await rm(folder, { recursive: true });
    }
    this.#held.release();
  }

  // The next run, whose files are written and checked.
  async #checkedRun(rules, folder, suffix) {
    const [config, scriptPath] = [join(folder, `proxies${suffix}.json`), join(folder, `script${suffix}.toml`)];
    const script = scriptText(rules);
    const { startTimeout } = this.#options;
    await mkdir(folder, { recursive: true });
    await writeFile(config, populateText(this.#proxies, this.#addresses));
    await writeFile(scriptPath, script);
    const files = ["--config", config, "--script", scriptPath];
    const found = (await answerOf(this.#program, ["check", ...files], startTimeout)).trim();
    if (found !== "") throw new Error(found);
    const log = this.#options.log === undefined ? undefined : this.#options.log + suffix;
    const options = [...serveOptions(this.#options), ...(log === undefined ? [] : ["--log", log])];
    return { script, log, command: [this.#program, "serve", "--json", "--until-eof", "--seed", String(this.seed), ...files, ...options] };
  }

  async #waitForListeners(process) {
    const enabled = this.#proxies.filter((proxy) => proxy.enabled !== false).length;
    const listens = () => (process.addresses.size === enabled ? true : undefined);
    try {
      await process.waitFor("a line for each proxy", listens, this.#options.startTimeout);
    } catch (error) {
      if (error instanceof ToxiTimeout) throw new Error(`toxi doesn't listen within ${this.#options.startTimeout} ms`);
      throw process.fault();
    }
    this.#addresses = process.addresses;
  }

  // Ends the program, and takes its ports as soon as it stops listening.
  async #endRun() {
    if (this.#run === undefined || this.#isDown()) return;
    const { process } = this.#run;
    if (process.hasEnded && process.status !== 0) throw process.fault();
    process.closeInput();
    await this.#held.hold(this.#addresses.values());
    await process.stop();
    this.#run.isDown = true;
  }

  #isDown() {
    return this.#run.isDown === true;
  }

  #requireKnown(name) {
    const names = this.#proxies.map((proxy) => proxy.name);
    if (!names.includes(name)) throw unknown(name, names);
  }
}

// Node.js has the symbol from 18.18 on.
Toxi.prototype[Symbol.asyncDispose ?? Symbol.for("nodejs.asyncDispose")] = Toxi.prototype.stop;

function unknown(name, known) {
  const names = [...known].map((each) => JSON.stringify(each)).join(", ");
  return new Error(`no proxy ${JSON.stringify(name)} listens or is known; there are ${names || "none"}`);
}

module.exports = { Toxi };
