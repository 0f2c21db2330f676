package invalid.toxi;

import java.util.ArrayList;
import java.util.List;
import java.util.OptionalLong;
import java.util.Random;
import org.junit.jupiter.api.extension.AfterEachCallback;
import org.junit.jupiter.api.extension.BeforeAllCallback;
import org.junit.jupiter.api.extension.ExtensionContext;

/**
 * An extension of JUnit 5 whose Toxis end with their test. Each test has its own, so tests may run at once.
 *
 * <pre>{@code
 * @RegisterExtension
 * final ToxiExtension toxi = new ToxiExtension();
 *
 * @Test
 * void slowAnswer() {
 *     Toxi served = toxi.start(Toxi.builder().proxy("shop", "127.0.0.1:8080").rule(Rule.of("shop", Toxics.latency().latency(100))));
 *     connect(served.address("shop"));
 * }
 * }</pre>
 *
 * Where neither the builder nor {@code TOXI_SEED} has a seed, it is drawn. A red test prints the seed, the command that runs it again, and what Toxi reports.
 */
public final class ToxiExtension implements BeforeAllCallback, AfterEachCallback {
    private static final int GREATEST_DRAWN = 1_000_000;
    private final List<Toxi> started = new ArrayList<>();

    /** An extension for a field that isn't static. */
    public ToxiExtension() {}

    /** Starts a Toxi that ends with the test. Throws as {@link Toxi.Builder#start}. */
    public Toxi start(Toxi.Builder builder) {
        // A seed of a few digits is easily typed.
        OptionalLong drawn = OptionalLong.of(new Random().nextInt(GREATEST_DRAWN));
        Toxi toxi = builder.seedUnlessGiven(Seeds.ofEnvironment()).seedUnlessGiven(drawn).start();
        synchronized (started) {
            started.add(toxi);
        }
        return toxi;
    }

    /** JUnit calls it for a static field alone, whose tests would end each other's proxies. */
    @Override
    public void beforeAll(ExtensionContext context) {
        throw new ToxiException("the field of a ToxiExtension isn't static");
    }

    @Override
    public void afterEach(ExtensionContext context) {
        synchronized (started) {
            started.forEach(Toxi::close);
            if (context.getExecutionException().isPresent()) {
                String test = context.getRequiredTestClass().getName() + "#" + context.getRequiredTestMethod().getName();
                started.forEach(toxi -> System.err.println(runAgain(test, toxi.seed()) + "\n" + toxi.report()));
            }
            started.clear();
        }
    }

    /** The command that runs a test again with this seed. */
    static String runAgain(String test, long seed) {
        return "TOXI_SEED=" + Long.toUnsignedString(seed) + " " + Shell.command(List.of("mvn", "test", "-Dtest=" + test));
    }
}
