// A client that stays for many runs.
"use strict";

const { answerRuns } = require("../index.js");

answerRuns(async (proxies) => (proxies.shop ?? "").length);
