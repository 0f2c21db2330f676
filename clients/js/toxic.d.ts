/** What every toxic has. */
export interface ToxicBase {
  /** The type and the stream if absent, such as `latency_downstream`. */
  readonly name?: string;
  /** The direction of the bytes: to the server or to the client. `downstream` if absent. */
  readonly stream?: "upstream" | "downstream";
  /**
   * The share of the links that meet it: a number of 0.0 to 1.0 in thousandths, such as 0.25, or the same as a text. Every link meets it if absent. The program
   * refuses another.
   */
  readonly toxicity?: number | string;
}
