// Glue for node:test.
"use strict";

const { randomInt } = require("node:crypto");
const { environmentSeed } = require("./lib/config.js");
const { shellCommand } = require("./lib/report.js");
const { Toxi } = require("./lib/toxi.js");

function runAgain(test, seed) {
  const pattern = `^${test.name.replace(/[.*+?^${}()|[\]\\/]/g, "\\$&")}$`;
  const command = shellCommand(["node", "--test", `--test-name-pattern=${pattern}`, process.argv[1]]);
  return `${shellCommand(["cd", process.cwd()])} && TOXI_SEED=${seed} ${command}`;
}

async function toxiFor(test, options) {
  // A seed of a few digits is easily typed.
  const toxi = await Toxi.start({ ...options, seed: options.seed ?? environmentSeed() ?? randomInt(1_000_000) });
  test.after(async () => {
    await toxi.stop();
    if (test.passed === true) return;
    // A diagnostic is one line.
    for (const line of [runAgain(test, toxi.seed), ...toxi.report().split("\n")]) test.diagnostic(line);
  });
  return toxi;
}

module.exports = { runAgain, toxiFor };
