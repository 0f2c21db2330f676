package invalid.toxi;

import java.util.ArrayList;
import java.util.LinkedHashMap;
import java.util.List;
import java.util.Map;
import java.util.stream.Collectors;

/** What was given of a toxic: the texts that all types have, and the attributes of its own type, by their keys in a script. */
record Settings(Map<String, String> texts, Map<String, Long> attributes) {
    static Settings of(String type) {
        return new Settings(Map.of(), Map.of()).with("type", type);
    }

    Settings with(String key, String text) {
        return new Settings(added(texts, key, text), attributes);
    }

    Settings with(String key, long value) {
        return new Settings(texts, added(attributes, key, value));
    }

    private static <T> Map<String, T> added(Map<String, T> values, String key, T value) {
        Map<String, T> copy = new LinkedHashMap<>(values);
        copy.put(key, value);
        return copy;
    }

    /** The table of the toxic in a script. */
    List<String> lines() {
        List<String> lines = new ArrayList<>(List.of("", "[[rule.toxic]]"));
        texts.forEach((key, text) -> lines.add(key + " = " + Toml.quoted(text)));
        String numbers = attributes.entrySet().stream().map(each -> each.getKey() + " = " + each.getValue()).collect(Collectors.joining(", "));
        lines.add("attributes = { " + numbers + " }");
        return lines;
    }
}
