package invalid.toxi;

import java.util.OptionalLong;

/** Seeds, whose 64 bits are read as a whole number without a sign. */
final class Seeds {
    private Seeds() {}

    /** The seed of a text such as that of {@code TOXI_SEED}, or empty for a missing or an empty text. */
    static OptionalLong of(String text) {
        if (text == null || text.isEmpty()) {
            return OptionalLong.empty();
        }
        try {
            return OptionalLong.of(Long.parseUnsignedLong(text));
        } catch (NumberFormatException error) {
            throw new ToxiException("TOXI_SEED is a whole number from 0 to 18446744073709551615, not " + text, error);
        }
    }

    static OptionalLong ofEnvironment() {
        return of(System.getenv("TOXI_SEED"));
    }
}
