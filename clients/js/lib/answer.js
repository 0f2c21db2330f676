// Glue for `toxi-find --persistent`.
"use strict";

const { createInterface } = require("node:readline");

// Runs a client for each line on standard input, and answers with its status.
async function answerRuns(client) {
  for await (const line of createInterface({ input: process.stdin })) {
    const { run, proxies } = JSON.parse(line);
    process.stdout.write(`toxi-answer ${run} ${await client(proxies)}\n`);
  }
}

module.exports = { answerRuns };
