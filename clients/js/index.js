// The package for CommonJS.
"use strict";

const { answerRuns } = require("./lib/answer.js");
const { ToxiEnded, ToxiFault, ToxiTimeout } = require("./lib/errors.js");
const { Toxi } = require("./lib/toxi.js");

module.exports = { Toxi, ToxiEnded, ToxiFault, ToxiTimeout, answerRuns };
