// As types.mts, for CommonJS.
import toxi = require("@toxi.invalid/toxi");
import glue = require("@toxi.invalid/toxi/test");

export async function use(test: glue.TestContext): Promise<string> {
  const served: toxi.Toxi = await glue.toxiFor(test, { proxies: { shop: "127.0.0.1:1" } });
  return served.address("shop");
}
