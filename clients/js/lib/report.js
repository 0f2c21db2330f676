// What a person needs after a failed test.
"use strict";

function shellWord(word) {
  return /^[A-Za-z0-9@%+=:,./_-]+$/.test(word) ? word : `'${word.replaceAll("'", `'"'"'`)}'`;
}

// A command as a POSIX shell reads it.
const shellCommand = (words) => words.map(shellWord).join(" ");

function runReport({ command, script, log, process }, seed) {
  const judged = log === undefined ? [] : [`find ${shellWord(log)} -name '*.log' | ${shellWord(command[0])} replay -`];
  const said = process.said === "" ? [] : [process.said.trimEnd()];
  return [`seed ${seed}`, shellCommand(command), script.trimEnd(), ...process.lines, ...said, ...judged].join("\n");
}

module.exports = { runReport, shellCommand };
