/**
 * Starts {@code toxi serve}, a TCP proxy that adds faults, in front of the services of a test.
 *
 * <pre>{@code
 * Toxi.Builder shop = Toxi.builder()
 *         .proxy("shop", "127.0.0.1:8080")
 *         .rule(Rule.of("shop", Toxics.latency().latency(100)));
 * try (Toxi toxi = shop.start()) {
 *     connect(toxi.address("shop"));
 * }
 * }</pre>
 *
 * The program is that of the builder, else that of {@code TOXI}, else that of the jar for this machine, else {@code toxi} on the {@code PATH}. It runs on Linux
 * alone, and must be of this package's version.
 */
package invalid.toxi;
