// What `tsc --strict` must take, without the types of Node.js. Each line below `@ts-expect-error` must be refused.
import { Toxi, ToxiFault, type Link, type Rule, type Toxic } from "@toxi.invalid/toxi";
import { toxiFor, type TestContext } from "@toxi.invalid/toxi/test";

const toxics: Toxic[] = [
  { type: "latency", latency: 3, jitter: 1, until: 9, from: 1, name: "slow", stream: "upstream", toxicity: 0.5 },
  { type: "bandwidth", rate: 1000 },
];
const rules: Rule[] = [{ proxy: "shop", toxics, last: 2 }];

export async function use(test: TestContext): Promise<void> {
  const toxi: Toxi = await toxiFor(test, { proxies: { shop: "127.0.0.1:1" }, rules, seed: 7n });
  const link: Link = await toxi.waitForLink("shop", 1);
  const up: number = link.up;
  await toxi.restart([]);
  await toxi[Symbol.asyncDispose]();
  const other = await Toxi.start({ proxies: [{ name: "shop", upstream: `127.0.0.1:${up}`, listen: "127.0.0.1:2" }] }).catch((error: unknown) => error);
  if (other instanceof ToxiFault) other.code.toLowerCase();
}

// @ts-expect-error: no such type
export const type: Toxic = { type: "noop" };
// @ts-expect-error: no such attribute
export const attribute: Toxic = { type: "latency", rate: 1 };
// @ts-expect-error: rate has to be given
export const missing: Toxic = { type: "bandwidth" };
// @ts-expect-error: only start makes one
export const made: Toxi = new Toxi();
