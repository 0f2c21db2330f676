// This file is made by tests/tables of the program's own table.
import type { ToxicBase } from "./toxic.js";

/** A toxic of any type. */
export type Toxic = Latency | Bandwidth | SlowClose | Timeout | ResetPeer | Slicer | LimitData;

/** Delays all data by latency plus or minus jitter. */
export interface Latency extends ToxicBase {
  readonly type: "latency";
  /** how much later data leaves. In milliseconds, 0 to 3,600,000. */
  readonly latency?: number;
  /** each piece leaves up to so much earlier or later than that. In milliseconds, 0 to 3,600,000. */
  readonly jitter?: number;
  /** stops at that time, and from then on all passes; 0: never. In milliseconds, 0 to 3,600,000. */
  readonly until?: number;
  /** begins at that time, and until then all passes; 0: at once. In milliseconds, 0 to 3,600,000. */
  readonly from?: number;
}

/** Passes so many kilobytes (of 1000 bytes) a second. */
export interface Bandwidth extends ToxicBase {
  readonly type: "bandwidth";
  /** how many pass each second. In kilobytes (of 1000 bytes) a second, 1 to 1,000,000; it has to be given. */
  readonly rate: number;
  /** stops at that time, and from then on all passes; 0: never. In milliseconds, 0 to 3,600,000. */
  readonly until?: number;
  /** begins at that time, and until then all passes; 0: at once. In milliseconds, 0 to 3,600,000. */
  readonly from?: number;
}

/** Delays the closing. */
export interface SlowClose extends ToxicBase {
  readonly type: "slow_close";
  /** how much later the link closes. In milliseconds, 0 to 3,600,000. */
  readonly delay?: number;
}

/** Drops all data, and closes after a time. */
export interface Timeout extends ToxicBase {
  readonly type: "timeout";
  /** when the link closes; 0: never. In milliseconds, 0 to 3,600,000. */
  readonly timeout?: number;
  /** begins at that time, and until then all passes; 0: at once. In milliseconds, 0 to 3,600,000. */
  readonly from?: number;
  /** begins behind so many bytes, if that is sooner; 0: not for their sake. In bytes, 0 to 1,099,511,627,776. */
  readonly after?: number;
}

/** Resets the connection after a time. */
export interface ResetPeer extends ToxicBase {
  readonly type: "reset_peer";
  /** when the connection is reset. In milliseconds, 0 to 3,600,000. */
  readonly timeout?: number;
  /** resets behind so many bytes, and not before that time; 0: at that time. In bytes, 0 to 1,099,511,627,776. */
  readonly after?: number;
}

/** Cuts data into pieces, with a wait before each. */
export interface Slicer extends ToxicBase {
  readonly type: "slicer";
  /** the size of a piece. In bytes, 1 to 1,000,000; it has to be given. */
  readonly average_size: number;
  /** a piece has up to so many bytes more or fewer; below average_size. In bytes. */
  readonly size_variation?: number;
  /** the wait before each piece. In microseconds, 0 to 3,600,000,000. */
  readonly delay?: number;
  /** stops at that time, and from then on all passes; 0: never. In milliseconds, 0 to 3,600,000. */
  readonly until?: number;
  /** begins at that time, and until then all passes; 0: at once. In milliseconds, 0 to 3,600,000. */
  readonly from?: number;
}

/** Closes the connection after so many bytes. */
export interface LimitData extends ToxicBase {
  readonly type: "limit_data";
  /** how many pass before it closes. In bytes, 0 to 1,099,511,627,776. */
  readonly bytes?: number;
}
