// Names and addresses, and what is wrong with them.
"use strict";

const assert = require("node:assert/strict");
const { once } = require("node:events");
const { createServer } = require("node:net");
const { describe, it } = require("node:test");
const { Toxi } = require("../index.js");
const { toxiFor } = require("../test.js");
const { PATIENCE, SIZE, fetched, served, service, shop } = require("./service.js");

// An address of this machine at which nobody listens.
async function freeAddress() {
  const server = createServer();
  await once(server.listen(0, "127.0.0.1"), "listening");
  const { port } = server.address();
  await once(server.close(), "close");
  return `127.0.0.1:${port}`;
}

describe("names", { concurrency: true }, () => {
  it("a proxy listens at a fixed address", async (t) => {
    const listen = await freeAddress();
    assert.equal((await served(t, [], { listen })).address("shop"), listen);
    assert.equal(await fetched(listen), SIZE);
  });

  it("a url has the address", async (t) => {
    const toxi = await served(t);
    assert.equal(toxi.url("shop"), `http://${toxi.address("shop")}`);
  });

  it("two proxies have links of their own", async (t) => {
    const upstream = await service;
    const toxi = await toxiFor(t, { proxies: { shop: upstream, mail: upstream } });
    for (const name of ["mail", "shop", "mail"]) await fetched(toxi.address(name));
    await toxi.waitForLink("mail", 2, PATIENCE);
    await toxi.waitForLink("shop", 1, PATIENCE);
    assert.equal(toxi.links("mail").length, 2);
    assert.equal(toxi.links("shop").length, 1);
  });

  it("a name needs escapes", async (t) => {
    const name = 'a "shop" \\ of\x7f é\u202e';
    const toxi = await toxiFor(t, { proxies: { [name]: await service }, rules: [{ proxy: name, toxics: [{ type: "limit_data", bytes: 5 }] }] });
    await fetched(toxi.address(name));
    assert.equal((await toxi.waitForLink(name, 1, PATIENCE)).down, 5);
  });

  it("a disabled proxy has no address", async (t) => {
    const options = await shop();
    options.proxies.push({ name: "mail", upstream: await service, enabled: false });
    const toxi = await toxiFor(t, options);
    assert.throws(() => toxi.address("mail"), /"mail"/);
    assert.deepEqual(toxi.links("mail"), []);
  });

  it("a misspelt address is refused", async (t) => {
    const toxi = await served(t);
    assert.throws(() => toxi.address("shp"), /no proxy "shp" listens or is known; there are "shop"/);
  });

  it("a misspelt link is refused", async (t) => {
    const toxi = await served(t);
    await assert.rejects(toxi.waitForLink("shp", 1), /"shop"/);
    assert.throws(() => toxi.links("shp"), /"shop"/);
  });

  it("a rule for no proxy fails the start", async () => {
    const rules = [{ proxy: "shp", toxics: [{ type: "latency", latency: 1 }] }];
    await assert.rejects(Toxi.start({ ...(await shop()), rules }), /rule 1 never applies: no proxy shp \(shop\?\)/);
  });

  it("a rule without effect fails the start", async () => {
    const options = await shop([{ type: "latency", latency: 1 }]);
    options.rules.push(options.rules[0]);
    await assert.rejects(Toxi.start(options), /rule 2 never applies/);
  });

  it("a wrong value is explained", async () => {
    const wrong = { name: "ToxiFault", code: "S5", message: /latency = 3600001[^]*3600000/ };
    await assert.rejects(Toxi.start(await shop([{ type: "latency", latency: 3_600_001 }])), wrong);
    await assert.rejects(Toxi.start(await shop([{ type: "latency", latencyy: 1 }])), { code: "S4" });
  });
});
