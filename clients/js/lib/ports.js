// Ports that are kept while nobody listens at them.
"use strict";

const { once } = require("node:events");
const { connect, createServer } = require("node:net");
const { setTimeout: pause } = require("node:timers/promises");
const { STOP_LIMIT } = require("./process.js");

// Between two looks whether the program has stopped listening, in milliseconds.
const HOLD_PAUSE = 2;

// Node.js has no bound socket that doesn't listen. So a connection that begins at the port keeps it: connects there are refused, and the system gives the
// port to nobody who asks for any.
class HeldPorts {
  #ends = [];

  async hold(addresses) {
    for (const address of addresses) {
      const end = Date.now() + STOP_LIMIT;
      while (!(await this.#holds(address))) {
        if (Date.now() > end) throw new Error(`another process has taken ${address}`);
        await pause(HOLD_PAUSE);
      }
    }
  }

  async #holds(address) {
    const colon = address.lastIndexOf(":");
    const host = address.slice(0, colon).replace(/^\[|\]$/g, "");
    const sink = createServer().listen(0, host);
    await once(sink, "listening");
    const held = connect({ host, port: sink.address().port, localAddress: host, localPort: Number(address.slice(colon + 1)) });
    try {
      await Promise.all([once(held, "connect"), once(sink, "connection").then(([peer]) => this.#ends.push(peer.unref().on("error", () => {})))]);
      this.#ends.push(held.unref().on("error", () => {}));
      return true;
    } catch {
      return false;
    } finally {
      sink.close();
    }
  }

  release() {
    for (const end of this.#ends.splice(0)) end.destroy();
  }
}

module.exports = { HeldPorts };
