// Starts, restarts and ends.
"use strict";

const assert = require("node:assert/strict");
const { execFileSync, spawn } = require("node:child_process");
const { once } = require("node:events");
const { chmod, mkdtemp, readdir, rm, writeFile } = require("node:fs/promises");
const { tmpdir } = require("node:os");
const { join } = require("node:path");
const { describe, it } = require("node:test");
const { Toxi, ToxiTimeout } = require("../index.js");
const { toxiFor } = require("../test.js");
const { PATIENCE, SIZE, eventually, fetched, isRefused, served, service, shop } = require("./service.js");

async function folderFor(t) {
  const folder = await mkdtemp(join(tmpdir(), "test-"));
  t.after(() => rm(folder, { recursive: true }));
  return folder;
}

// What a call gives while TOXI_SEED has a text. Only what it does before it waits sees that.
function withSeed(text, call) {
  process.env.TOXI_SEED = text;
  try {
    return call();
  } finally {
    delete process.env.TOXI_SEED;
  }
}

describe("life", { concurrency: true }, () => {
  it("a link that does not come times out", async (t) => {
    await assert.rejects((await served(t)).waitForLink("shop", 1, 100), ToxiTimeout);
  });

  it("a restart serves other rules at the same address", async (t) => {
    const toxi = await served(t);
    const address = toxi.address("shop");
    await fetched(address);
    await toxi.waitForLink("shop", 1, PATIENCE);
    for (const bytes of [100, 10]) {
      await toxi.restart([{ proxy: "shop", toxics: [{ type: "limit_data", bytes }] }]);
      assert.equal(toxi.address("shop"), address);
      await fetched(address);
      assert.equal((await toxi.waitForLink("shop", 1, PATIENCE)).down, bytes);
    }
  });

  it("a wrong restart changes nothing", async (t) => {
    const toxi = await served(t);
    await assert.rejects(toxi.restart([{ proxy: "shp" }]), /no proxy shp/);
    assert.equal(await fetched(toxi.address("shop")), SIZE);
  });

  it("down refuses and up answers", async (t) => {
    const toxi = await served(t);
    const address = toxi.address("shop");
    await toxi.down();
    await toxi.down();
    assert.equal(await isRefused(address), true);
    await toxi.up();
    await toxi.up();
    assert.equal(await fetched(address), SIZE);
    assert.equal((await toxi.waitForLink("shop", 1, PATIENCE)).down, SIZE);
  });

  it("logs are kept", async (t) => {
    const toxi = await toxiFor(t, { ...(await shop([{ type: "latency", latency: 5 }])), log: join(await folderFor(t), "logs") });
    await fetched(toxi.address("shop"));
    await toxi.waitForLink("shop", 1, PATIENCE);
    await toxi.stop();
    const logs = await toxi.logs();
    assert.equal(logs.length, 2);
    const judged = execFileSync(process.env.TOXI, ["replay", ...logs], { encoding: "utf8" });
    assert.equal(judged.match(/^faithful shop 1 /gm).length, 2);
  });

  it("a red test tells how to run it again", async () => {
    let end;
    let told = "";
    const red = { name: "a slow (answer)", passed: false, after: (hook) => (end = hook), diagnostic: (line) => (told += `${line}\n`) };
    const toxi = await toxiFor(red, await shop([{ type: "limit_data", bytes: 100 }]));
    await fetched(toxi.address("shop"));
    await toxi.waitForLink("shop", 1, PATIENCE);
    await end();
    assert.ok(told.includes(`TOXI_SEED=${toxi.seed} node --test '--test-name-pattern=^a slow \\(answer\\)$' ${process.argv[1]}\n`), told);
    for (const wanted of [`seed ${toxi.seed}`, "bytes = 100", '"down":100']) assert.ok(told.includes(wanted), told);
    red.passed = true;
    told = "";
    await toxiFor(red, await shop());
    await end();
    assert.equal(told, "");
  });

  it("the seed comes from the environment", async (t) => {
    const options = await shop();
    const toxi = await withSeed("18446744073709551615", () => toxiFor(t, options));
    assert.equal(toxi.seed, 18446744073709551615n);
    await withSeed("seven", () => assert.rejects(Toxi.start(options), /TOXI_SEED is a whole number/));
  });

  it("a program that is not there or is of another version", async (t) => {
    const program = join(await folderFor(t), "toxi");
    await assert.rejects(Toxi.start({ ...(await shop()), program }), /can't be started/);
    await writeFile(program, "#!/bin/sh\necho toxi 0.0.1\n");
    await chmod(program, 0o700);
    await assert.rejects(Toxi.start({ ...(await shop()), program }), /is of version 0\.0\.1/);
  });

  it("a port that is taken", async (t) => {
    const listen = (await served(t)).address("shop");
    await assert.rejects(Toxi.start(await shop([], { listen })), { code: "P4" });
  });

  it("nothing is left of a test that ended or was killed", async (t) => {
    const folder = await folderFor(t);
    const toxi = await toxiFor(t, await shop());
    await toxi[Symbol.asyncDispose]();
    await toxi.stop();
    assert.equal(await isRefused(toxi.address("shop")), true);
    const killed = spawn(process.execPath, [join(__dirname, "killed.js"), await service], { env: { ...process.env, TMPDIR: folder } });
    const [printed] = await once(killed.stdout, "data");
    const address = String(printed).trim();
    assert.equal(await isRefused(address), false);
    killed.kill("SIGKILL");
    await eventually("toxi ends with the test that started it", () => isRefused(address));
    assert.deepEqual(await readdir(folder), []);
  });

  it("runs are answered", () => {
    const input = '{"run": 1, "proxies": {"shop": "127.0.0.1:4"}}\n{"run": 2, "proxies": {}}\n';
    const printed = execFileSync(process.execPath, [join(__dirname, "answers.js")], { input, encoding: "utf8" });
    assert.equal(printed, "toxi-answer 1 11\ntoxi-answer 2 0\n");
  });
});
