// A test that is killed: it tells the address of a proxy, and goes on.
"use strict";

const { Toxi } = require("../index.js");

Toxi.start({ proxies: { shop: process.argv[2] } }).then((toxi) => console.log(toxi.address("shop")));
