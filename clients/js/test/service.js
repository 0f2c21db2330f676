// A service that answers each line with a thousand bytes and closes, and its clients.
"use strict";

const assert = require("node:assert/strict");
const { once } = require("node:events");
const { connect, createServer } = require("node:net");
const { setTimeout: pause } = require("node:timers/promises");
const { toxiFor } = require("../test.js");

const SIZE = 1000;
const PATIENCE = 30_000;
const SHORT = 2000;

// An option of `serve` that isn't the suite's.
process.env.TOXI_WORKERS = "none";

const service = (async () => {
  const server = createServer((client) => {
    client.on("error", () => {});
    client.once("data", () => client.end("x".repeat(SIZE)));
  });
  await once(server.unref().listen(0, "127.0.0.1"), "listening");
  return `127.0.0.1:${server.address().port}`;
})();

// Options of one proxy, `shop`, whose connections all meet these toxics.
async function shop(toxics = [], more = {}) {
  const rules = toxics.length > 0 ? [{ proxy: "shop", toxics }] : [];
  return { proxies: [{ name: "shop", upstream: await service, ...more }], rules };
}

const served = async (t, toxics, more) => toxiFor(t, await shop(toxics, more));

function connected(address) {
  const colon = address.lastIndexOf(":");
  return connect(Number(address.slice(colon + 1)), address.slice(0, colon));
}

// The bytes of an answer, which has some milliseconds.
function fetched(address, timeout = PATIENCE) {
  return new Promise((resolve, reject) => {
    let got = 0;
    const client = connected(address);
    const timer = setTimeout(() => client.destroy(new Error("timed out")), timeout);
    client.on("connect", () => client.write("get\n"));
    client.on("data", (bytes) => (got += bytes.length));
    client.on("end", () => resolve(got));
    client.on("error", reject);
    client.on("close", () => clearTimeout(timer));
  });
}

// Of each of some tries, whether it had the whole answer.
async function works(t, options, tries) {
  const toxi = await toxiFor(t, options);
  const told = [];
  while (told.length < tries) told.push((await fetched(toxi.address("shop")).catch(() => 0)) === SIZE);
  return told;
}

const isRefused = (address) => fetched(address).then(() => false, (error) => error.code === "ECONNREFUSED");

async function eventually(what, holds) {
  for (const end = Date.now() + PATIENCE; !(await holds()); await pause(10)) assert.ok(Date.now() < end, `not within 30 s: ${what}`);
}

module.exports = { PATIENCE, SHORT, SIZE, eventually, fetched, isRefused, served, service, shop, works };
