package invalid.toxi;

/** The program couldn't be started, or a name or a rule is wrong. */
public class ToxiException extends RuntimeException {
    private static final long serialVersionUID = 1L;

    ToxiException(String message) {
        super(message);
    }

    ToxiException(String message, Throwable cause) {
        super(message, cause);
    }

    /** What was waited for hasn't come within its time. */
    public static final class Timeout extends ToxiException {
        private static final long serialVersionUID = 1L;

        Timeout(String message) {
            super(message);
        }
    }

    /** The program has ended, so what was waited for can't come. */
    public static final class Ended extends ToxiException {
        private static final long serialVersionUID = 1L;

        Ended(String message) {
            super(message);
        }
    }
}
