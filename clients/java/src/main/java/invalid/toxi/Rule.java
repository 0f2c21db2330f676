package invalid.toxi;

import java.util.ArrayList;
import java.util.List;
import java.util.OptionalInt;

/**
 * The toxics that the connections of a proxy from one number to another meet. A connection meets the first rule that covers it, and no other.
 *
 * @param proxy the proxy's name
 * @param first the first connection, from 1
 * @param last the last connection, or empty: no upper end
 * @param toxics what they meet
 */
public record Rule(String proxy, int first, OptionalInt last, List<Toxic<?>> toxics) {
    /** Keeps a copy of the toxics. */
    public Rule {
        toxics = List.copyOf(toxics);
    }

    /** A rule for all connections of a proxy. */
    public static Rule of(String proxy, Toxic<?>... toxics) {
        return new Rule(proxy, 1, OptionalInt.empty(), List.of(toxics));
    }

    /** The same rule, from this connection on, counted from 1. */
    public Rule from(int connection) {
        return new Rule(proxy, connection, last, toxics);
    }

    /** The same rule, up to this connection. */
    public Rule to(int connection) {
        return new Rule(proxy, first, OptionalInt.of(connection), toxics);
    }

    /** The script with these rules, a document of TOML in version 2. */
    static String script(List<Rule> rules) {
        List<String> lines = new ArrayList<>(List.of("version = 2"));
        for (Rule rule : rules) {
            lines.addAll(List.of("", "[[rule]]", "proxy = " + Toml.quoted(rule.proxy), "first = " + rule.first));
            rule.last.ifPresent(last -> lines.add("last = " + last));
            rule.toxics.forEach(toxic -> lines.addAll(toxic.settings().lines()));
        }
        return String.join("\n", lines) + "\n";
    }
}
