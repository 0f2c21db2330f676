package invalid.toxi;

import java.io.IOException;
import java.nio.file.Files;
import java.nio.file.Path;
import java.util.List;

/** The populate file and the script of a run. Without a folder for them they go away once the program has read them. */
final class RunFiles implements AutoCloseable {
    private final String suffix;
    private final boolean isOwn;
    private final Path folder;
    private final Path config;
    private final Path script;

    RunFiles(Path directory, String suffix) throws IOException {
        this.suffix = suffix;
        isOwn = directory == null;
        folder = isOwn ? Files.createTempDirectory("toxi-") : Files.createDirectories(directory);
        config = folder.resolve("proxies" + suffix + ".json");
        script = folder.resolve("script" + suffix + ".toml");
    }

    /** What the names of its files have behind them. */
    String suffix() {
        return suffix;
    }

    /** Writes them, and returns the options that name them. */
    List<String> written(String populateText, String scriptText) throws IOException {
        Files.writeString(config, populateText);
        Files.writeString(script, scriptText);
        return List.of("--config", config.toString(), "--script", script.toString());
    }

    @Override
    public void close() throws IOException {
        if (isOwn) {
            Files.deleteIfExists(config);
            Files.deleteIfExists(script);
            Files.deleteIfExists(folder);
        }
    }
}
