// The program: where it is, its version, and commands of it that answer and end.
"use strict";

const { execFile } = require("node:child_process");
const { stat } = require("node:fs/promises");
const { name: PACKAGE, version: VERSION } = require("../package.json");
const { errorOf } = require("./errors.js");

// The environment of the program: this process's without options of `serve`, since those of a suite are its own. Explanations of faults are asked for unless it
// refuses them.
function environment() {
  const kept = Object.entries(process.env).filter(([name]) => !name.startsWith("TOXI_") || name === "TOXI_EXPLAIN");
  return { TOXI_EXPLAIN: "1", ...Object.fromEntries(kept) };
}

const versions = new Map();

// What a command prints on standard output. Rejects where it fails.
function answerOf(program, words, timeout) {
  return new Promise((resolve, reject) => {
    execFile(program, words, { env: environment(), timeout }, (error, printed, said) => {
      if (error === null) resolve(printed);
      else if (error.killed) reject(new Error(`${program} didn't answer within ${timeout} ms`));
      else if (typeof error.code === "string") reject(new Error(`${program} can't be started: ${error.code}`));
      else reject(errorOf(said, error.code ?? error.signal));
    });
  });
}

// The program of the package for this machine, if it was installed.
function ownProgram() {
  try {
    return require.resolve(`${PACKAGE}-${process.platform}-${process.arch}/bin/toxi`);
  } catch {
    return undefined;
  }
}

// The path of the program, which must be of this package's version.
async function foundProgram(given, timeout) {
  const program = given ?? (process.env.TOXI || ownProgram()) ?? "toxi";
  const changed = await stat(program).then(({ mtimeMs }) => mtimeMs, () => 0);
  const key = `${program} ${changed}`;
  if (!versions.has(key)) versions.set(key, await versionOf(program, timeout));
  const version = versions.get(key);
  if (version !== VERSION) throw new Error(`${program} is of version ${version}, and the package ${PACKAGE} of ${VERSION}`);
  return program;
}

async function versionOf(program, timeout) {
  const [name, version] = (await answerOf(program, ["--version"], timeout)).split(/\s+/);
  if (name !== "toxi" || !version) throw new Error(`${program} isn't the program \`toxi\`: it doesn't tell a version`);
  return version;
}

module.exports = { answerOf, environment, foundProgram };
