import type { Toxic } from "./toxics.js";

export * from "./toxics.js";
export type { ToxicBase } from "./toxic.js";

declare global {
  interface SymbolConstructor {
    /** The symbol of `await using`. */
    readonly asyncDispose: unique symbol;
  }
}

/** A proxy listens before an upstream, `host:port`. */
export interface Proxy {
  readonly name: string;
  readonly upstream: string;
  /** `host:port`. A port of 127.0.0.1 that the system chooses if absent, which stays the proxy's own. */
  readonly listen?: string;
  /** Whether it listens. True if absent. */
  readonly enabled?: boolean;
}

/** The toxics that the connections `first` to `last` of a proxy meet. A connection meets the first rule that covers it, and no other. */
export interface Rule {
  readonly proxy: string;
  /** Counted from 1, which it is if absent. */
  readonly first?: number;
  /** No upper end if absent. */
  readonly last?: number;
  readonly toxics?: readonly Toxic[];
}

/** What a Toxi serves, and how. */
export interface Options {
  /** Proxies, or upstreams by the names of their proxies. */
  readonly proxies: readonly Proxy[] | Readonly<Record<string, string>>;
  readonly rules?: readonly Rule[];
  /** What the draws are made from: a whole number from 0 to 2^64 - 1. If absent, it is that of TOXI_SEED, or else 1. */
  readonly seed?: number | bigint | string;
  /** The path of the program. If absent, it is TOXI, or else the one of the package for this machine, or else `toxi` on the PATH. */
  readonly program?: string;
  /** Keeps the populate file and the script. If absent, they go away once the program has read them. */
  readonly directory?: string;
  /** A folder, new or empty, that gets a log of each stream of a link. Later runs have their number behind its name. */
  readonly log?: string;
  /** After how many connections each proxy stops listening. */
  readonly links?: number;
  /** How many threads drive all links. If absent, each link has four of its own. */
  readonly workers?: number;
  /** How long a connect to an upstream may take, in milliseconds. */
  readonly connectTimeout?: number;
  /** How long the program has until it listens, in milliseconds. 300,000 if absent, since a clone's ./toxi compiles itself first. */
  readonly startTimeout?: number;
}

/** How an end of a link ended. */
export type End = "closed" | "reset" | "open" | "broken";

/** How a connection ended: its number, from 1, and the bytes written upstream and downstream. */
export interface Link {
  readonly proxy: string;
  readonly number: number;
  readonly up: number;
  readonly upEnd: End;
  readonly down: number;
  readonly downEnd: End;
}

/** The links of a proxy that has ended, and the sums of their bytes. */
export interface Total {
  readonly proxy: string;
  readonly links: number;
  readonly up: number;
  readonly down: number;
}

/** The program refused its files, or couldn't serve. Its message has the lines that explain it. */
export class ToxiFault extends Error {
  /** Such as `S5`. */
  readonly code: string;
}

/** What was waited for hasn't come within its time. */
export class ToxiTimeout extends Error {}

/** The program has ended, so what was waited for can't come. */
export class ToxiEnded extends Error {}

/** A started program. */
export class Toxi {
  private constructor();
  /**
   * Starts the program, and waits until every enabled proxy listens. It rejects with a ToxiFault where the program refuses what it is given, and with an Error
   * where a rule is for no proxy, or a rule or a toxic has no effect.
   */
  static start(options: Options): Promise<Toxi>;
  /** The seed of the draws. */
  readonly seed: bigint;
  /** The lines of the program so far. A restart begins anew. */
  readonly lines: readonly string[];
  /** `host:port` of a proxy. Throws for one that isn't there, or doesn't listen. */
  address(proxy: string): string;
  /** `http://host:port` of a proxy. Throws as `address`. */
  url(proxy: string): string;
  /** The links of a proxy that have ended so far, in the order of their ends. Throws for a proxy that isn't there. */
  links(proxy: string): Link[];
  /**
   * Waits for the end of the connection of this number, counted from 1, for `timeout` milliseconds, or else 5000. It rejects with a ToxiTimeout, or with a
   * ToxiEnded where it can't come.
   */
  waitForLink(proxy: string, number: number, timeout?: number): Promise<Link>;
  /**
   * Serves other rules at the same addresses. Links that live are broken, and the next is number 1. Rules that are wrong reject as at the start, and what runs
   * goes on.
   */
  restart(rules: readonly Rule[]): Promise<void>;
  /** Takes the service down: links that live are broken, and connects are refused. The system gives its ports to no other. A second call does nothing. */
  down(): Promise<void>;
  /** Takes the service up again, at the same addresses under the same rules and seed. The next link is number 1. If it is up, nothing is done. */
  up(): Promise<void>;
  /** Waits until the program ends by itself, which it does with `links`, for `timeout` milliseconds, or else 10,000. Rejects with a ToxiTimeout. */
  wait(timeout?: number): Promise<Total[]>;
  /** The paths of the logs so far, one for each stream of a link. None without `log`. */
  logs(): Promise<string[]>;
  /** What a person needs after a failed test, of each run: the seed, the command, the script, and the lines of the program. */
  report(): string;
  /** Ends the program. Links that live are broken, and have their lines. A second call does nothing. */
  stop(): Promise<void>;
  /** Stops at the end of `await using`. */
  [Symbol.asyncDispose](): Promise<void>;
}

/**
 * Runs a client for each line that `toxi-find --persistent` writes to standard input, with `host:port` of each proxy, and answers with its status: 0 is right.
 * It ends once standard input does. What the client prints on standard output begins on a line of its own.
 */
export function answerRuns(client: (proxies: Readonly<Record<string, string>>) => number | Promise<number>): Promise<void>;
