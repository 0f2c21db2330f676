// The files and the options that a Toxi serves with.
"use strict";

const GREATEST_SEED = 2n ** 64n - 1n;
// The keys of a toxic that aren't attributes, in the order of a script.
const COMMON = ["type", "name", "stream", "toxicity"];

function checkedSeed(seed, name) {
  let value = -1n;
  try {
    value = BigInt(seed);
  } catch {
    // What is no number is told below.
  }
  if (value < 0n || value > GREATEST_SEED || seed === "" || typeof seed === "boolean") {
    throw new RangeError(`${name} is a whole number from 0 to ${GREATEST_SEED}, not ${seed}`);
  }
  return value;
}

// The seed of TOXI_SEED, or undefined where it isn't set.
function environmentSeed() {
  const text = process.env.TOXI_SEED;
  return text ? checkedSeed(text, "TOXI_SEED") : undefined;
}

function seedOf(options) {
  return options.seed === undefined ? (environmentSeed() ?? 1n) : checkedSeed(options.seed, "seed");
}

// Proxies as a list, with all that they have.
function proxyList(proxies) {
  const given = Array.isArray(proxies) ? proxies : Object.entries(proxies).map(([name, upstream]) => ({ name, upstream }));
  return given.map((proxy) => ({ listen: "127.0.0.1:0", enabled: true, ...proxy }));
}

// The populate file. Proxies that have listened keep their addresses.
function populateText(proxies, addresses) {
  return JSON.stringify(proxies.map((proxy) => ({ ...proxy, listen: addresses.get(proxy.name) ?? proxy.listen })));
}

// A value as TOML. JSON's escapes are TOML's, but JSON leaves U+007F as it is. A number of a wrong kind is written too: the program names its place.
function tomlValue(value) {
  if (typeof value === "number" || typeof value === "bigint" || typeof value === "boolean") return String(value);
  if (typeof value === "string") return JSON.stringify(value).replaceAll("\x7f", "\\u007f");
  throw new TypeError(`${String(value)} can't stand in a script`);
}

// A share as the text of its thousandths: 0.1 + 0.2 is `0.3`. One that isn't thousandths stays as it is, and the program refuses it.
function toxicityText(value) {
  if (typeof value !== "number") return value;
  const rounded = Math.round(value * 1000) / 1000;
  return String(Math.abs(value - rounded) < 1e-9 ? rounded : value);
}

// The keys of a table of a script with their values. What is undefined is left out.
function settings(table, keys) {
  return keys.filter((key) => table[key] !== undefined).map((key) => `${tomlKey(key)} = ${tomlValue(table[key])}`);
}

// A key that isn't plain is quoted, and the program tells that it is unknown.
function tomlKey(key) {
  return /^[A-Za-z0-9_-]+$/.test(key) ? key : tomlValue(key);
}

function toxicLines(toxic) {
  const attributes = settings(toxic, Object.keys(toxic).filter((key) => !COMMON.includes(key)));
  return ["", "[[rule.toxic]]", ...settings({ ...toxic, toxicity: toxicityText(toxic.toxicity) }, COMMON), `attributes = { ${attributes.join(", ")} }`];
}

// The script with these rules, a document of TOML in version 2. A key that a rule doesn't have is written too: the program refuses it.
function scriptText(rules) {
  const lines = rules.map(({ toxics = [], ...rule }) => {
    const given = { first: 1, ...rule };
    return ["", "[[rule]]", ...settings(given, Object.keys(given)), ...toxics.flatMap(toxicLines)];
  });
  return `${["version = 2", ...lines.flat()].join("\n")}\n`;
}

// The options of `serve` that were given.
function serveOptions({ links, workers, connectTimeout }) {
  const given = Object.entries({ "--links": links, "--workers": workers, "--connect-timeout": connectTimeout });
  return given.flatMap(([option, value]) => (value === undefined ? [] : [option, String(value)]));
}

module.exports = { environmentSeed, populateText, proxyList, scriptText, seedOf, serveOptions };
