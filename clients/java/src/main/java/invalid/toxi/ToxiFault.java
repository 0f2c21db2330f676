package invalid.toxi;

import java.util.regex.Matcher;
import java.util.regex.Pattern;

/** The program refused its files, or couldn't serve. The message has the lines that explain it. */
public final class ToxiFault extends ToxiException {
    private static final long serialVersionUID = 1L;
    private static final Pattern LINE = Pattern.compile("^toxi: ([A-Z]\\d)( .*)?$", Pattern.MULTILINE);
    private final String code;

    private ToxiFault(String code, String message) {
        super(message);
        this.code = code;
    }

    /** Such as {@code S5}. */
    public String code() {
        return code;
    }

    /** The error of a program that ended with this status and these lines on standard error. */
    static ToxiException of(String said, int status) {
        Matcher found = LINE.matcher(said);
        if (!found.find()) {
            return new Ended("toxi ended with status " + status + ": " + said.stripTrailing());
        }
        return new ToxiFault(found.group(1), said.substring(found.start() + "toxi: ".length()).stripTrailing());
    }
}
