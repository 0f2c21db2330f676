package invalid.toxi;

import java.math.BigDecimal;
import java.math.RoundingMode;

/**
 * What a connection meets. {@link Toxics} has the types. Each is immutable: a setter returns another toxic.
 *
 * @param <T> its type
 */
public abstract class Toxic<T extends Toxic<T>> {
    private final Settings settings;

    Toxic(Settings settings) {
        this.settings = settings;
    }

    abstract T made(Settings settings);

    final Settings settings() {
        return settings;
    }

    /** The same toxic with this name. Without one it is the type and the stream, such as {@code latency_downstream}. */
    public final T name(String name) {
        return made(settings.with("name", name));
    }

    /** The same toxic on this stream. Without one it is downstream. */
    public final T stream(Stream stream) {
        return made(settings.with("stream", stream.word));
    }

    /**
     * The same toxic for this share of the links, 0.0 to 1.0 in thousandths, such as 0.25. Without one every link meets it. The program refuses another
     * share at the start.
     */
    public final T toxicity(double share) {
        BigDecimal given = new BigDecimal(Double.toString(share));
        BigDecimal rounded = given.setScale(3, RoundingMode.HALF_EVEN);
        boolean isRounded = given.subtract(rounded).abs().doubleValue() < 1e-9;
        return made(settings.with("toxicity", (isRounded ? rounded : given).toPlainString()));
    }
}
