import type { Options, Toxi } from "./index.js";

/** What is used of the context of a test of node:test. */
export interface TestContext {
  readonly name: string;
  /** Whether the test has passed. Node.js tells it from 20.12 on. */
  readonly passed?: boolean;
  after(hook: () => Promise<void>): void;
  diagnostic(message: string): void;
}

/**
 * Starts a Toxi that ends with the test. The seed is that of the options, or else of TOXI_SEED, or else it is drawn. A red test prints the seed, the
 * command that runs it again, and what Toxi reports. Before Node.js 20.12 a green test prints it too.
 */
export function toxiFor(test: TestContext, options: Options): Promise<Toxi>;

/** The command that runs a test again with this seed. */
export function runAgain(test: { readonly name: string }, seed: bigint): string;
