// Glue for node:test, for ECMAScript modules.
import test from "./test.js";

export const { runAgain, toxiFor } = test;
