// What passes a proxy, and what doesn't.
"use strict";

const assert = require("node:assert/strict");
const { describe, it } = require("node:test");
const { Toxi } = require("../index.js");
const { toxiFor } = require("../test.js");
const { PATIENCE, SHORT, SIZE, fetched, served, shop, works } = require("./service.js");

describe("traffic", { concurrency: true }, () => {
  it("an answer passes", async (t) => {
    const toxi = await served(t);
    assert.equal(await fetched(toxi.address("shop")), SIZE);
    const link = { proxy: "shop", number: 1, up: 4, upEnd: "closed", down: SIZE, downEnd: "closed" };
    assert.deepEqual(await toxi.waitForLink("shop", 1, PATIENCE), link);
  });

  it("a slow answer times out", async (t) => {
    const toxi = await served(t, [{ type: "latency", latency: 10_000 }]);
    await assert.rejects(fetched(toxi.address("shop"), SHORT), /timed out/);
  });

  it("silence times out", async (t) => {
    const toxi = await served(t, [{ type: "timeout" }]);
    await assert.rejects(fetched(toxi.address("shop"), SHORT), /timed out/);
  });

  it("a connection is reset", async (t) => {
    const toxi = await served(t, [{ type: "reset_peer" }]);
    await assert.rejects(fetched(toxi.address("shop")), /ECONNRESET|EPIPE/);
    assert.equal((await toxi.waitForLink("shop", 1, PATIENCE)).downEnd, "reset");
  });

  it("an answer is cut", async (t) => {
    const toxi = await served(t, [{ type: "limit_data", bytes: 100 }]);
    assert.equal(await fetched(toxi.address("shop")), 100);
    assert.equal((await toxi.waitForLink("shop", 1, PATIENCE)).down, 100);
  });

  it("a request is cut", async (t) => {
    const toxi = await served(t, [{ type: "limit_data", bytes: 2, stream: "upstream" }]);
    assert.equal(await fetched(toxi.address("shop"), SHORT).catch(() => 0), 0);
    assert.equal((await toxi.waitForLink("shop", 1, PATIENCE)).up, 2);
  });

  it("the third try works", async (t) => {
    const options = await shop([{ type: "limit_data" }]);
    options.rules[0].last = 2;
    assert.deepEqual(await works(t, options, 3), [false, false, true]);
  });

  it("a seed gives its sequence again", async (t) => {
    const options = await shop([{ type: "limit_data", toxicity: 0.5 }]);
    const first = await works(t, { ...options, seed: 7 }, 16);
    assert.deepEqual(await works(t, { ...options, seed: 7n }, 16), first);
    assert.notDeepEqual(await works(t, { ...options, seed: "8" }, 16), first);
  });

  it("every toxic is taken", async (t) => {
    const toxics = [
      { type: "latency", name: "slow", latency: 3, jitter: 1, until: 9, from: 1 },
      { type: "bandwidth", rate: 1000, until: 9, from: 1 },
      { type: "slow_close", delay: 1 },
      { type: "timeout", timeout: 9000, from: 8000, after: 5000 },
      { type: "reset_peer", timeout: 9000, after: 9000 },
      { type: "slicer", average_size: 10, size_variation: 5, delay: 1, until: 9, from: 1 },
      { type: "limit_data", bytes: 4000 },
    ];
    for (const toxic of toxics) assert.equal(await fetched((await served(t, [toxic])).address("shop")), SIZE);
  });

  it("a share is whole thousandths", async (t) => {
    const toxi = await toxiFor(t, await shop([{ type: "latency", latency: 1, toxicity: 0.1 + 0.2 }]));
    assert.match(toxi.report(), /toxicity = "0\.3"\n/);
    await assert.rejects(Toxi.start(await shop([{ type: "latency", latency: 1, toxicity: 0.0005 }])), /S7 ToxicityNotThousandths/);
  });
});
