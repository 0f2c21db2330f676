package invalid.toxi;

import com.google.gson.Gson;

/** Texts of a script. */
final class Toml {
    private static final Gson GSON = new Gson();

    private Toml() {}

    /** A text as TOML. JSON's escapes are TOML's, but JSON leaves U+007F as it is. */
    static String quoted(String text) {
        return GSON.toJson(text).replace("\u007f", "\\u007f");
    }
}
