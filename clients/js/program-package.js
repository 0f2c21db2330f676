// Writes the package that carries the program for a machine. Usage: node program-package.js PROGRAM CPU FOLDER, where CPU is x64 or arm64.
"use strict";

const { chmodSync, copyFileSync, mkdirSync, writeFileSync } = require("node:fs");
const { join } = require("node:path");
const { license, name, version } = require("./package.json");

const [program, cpu, folder] = process.argv.slice(2);
if (folder === undefined || !["x64", "arm64"].includes(cpu)) {
  console.error("usage: node program-package.js PROGRAM CPU FOLDER, where CPU is x64 or arm64");
  process.exit(2);
}
const about = { name: `${name}-linux-${cpu}`, version, description: `The program of ${name}`, license, os: ["linux"], cpu: [cpu], files: ["bin"] };
mkdirSync(join(folder, "bin"), { recursive: true });
writeFileSync(join(folder, "package.json"), `${JSON.stringify(about, null, 2)}\n`);
copyFileSync(program, join(folder, "bin", "toxi"));
chmodSync(join(folder, "bin", "toxi"), 0o755);
