// What can go wrong.
"use strict";

class ToxiFault extends Error {
  constructor(code, message) {
    super(message);
    this.name = "ToxiFault";
    this.code = code;
  }
}

class ToxiTimeout extends Error {
  name = "ToxiTimeout";
}

class ToxiEnded extends Error {
  name = "ToxiEnded";
}

// The error of a program that ended with this status and these lines on standard error.
function errorOf(said, status) {
  const found = /^toxi: ([A-Z]\d)( .*)?$/m.exec(said);
  if (found === null) return new ToxiEnded(`toxi ended with status ${status}: ${said.trimEnd() || "nothing on standard error"}`);
  return new ToxiFault(found[1], said.slice(found.index + "toxi: ".length).trimEnd());
}

module.exports = { ToxiEnded, ToxiFault, ToxiTimeout, errorOf };
