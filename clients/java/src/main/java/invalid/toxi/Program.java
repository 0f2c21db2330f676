package invalid.toxi;

import java.io.IOException;
import java.io.InputStream;
import java.nio.file.Files;
import java.nio.file.Path;
import java.nio.file.StandardCopyOption;
import java.nio.file.attribute.PosixFilePermissions;
import java.security.MessageDigest;
import java.security.NoSuchAlgorithmException;
import java.time.Duration;
import java.util.HexFormat;
import java.util.List;
import java.util.Map;
import java.util.concurrent.ConcurrentHashMap;
import java.util.concurrent.TimeUnit;

/** The program: where it is, its version, and commands of it that answer and end. */
final class Program {
    /** The version of this package, and of the program that it starts. */
    static final String VERSION = "0.8.0";

    private static final Map<String, String> VERSIONS = new ConcurrentHashMap<>();

    private Program() {}

    /** The path of the program, which must be of this package's version. */
    static String found(String given, Duration limit) {
        String program = chosen(given);
        String version = VERSIONS.computeIfAbsent(program + " " + lastChange(program), key -> versionOf(program, limit));
        if (!version.equals(VERSION)) {
            throw new ToxiException(program + " is of version " + version + ", and the package invalid.toxi of " + VERSION);
        }
        return program;
    }

    private static String chosen(String given) {
        String told = given != null ? given : System.getenv("TOXI");
        if (told != null && !told.isEmpty()) {
            return told;
        }
        try {
            String own = unpacked(System.getProperty("os.name").toLowerCase() + "-" + System.getProperty("os.arch"));
            return own != null ? own : "toxi";
        } catch (IOException error) {
            throw new ToxiException("the program of the jar can't be unpacked", error);
        }
    }

    /** Unpacks the program of the jar for this machine into the user's cache, by its hash. Null where there is no such jar. */
    private static String unpacked(String machine) throws IOException {
        byte[] program;
        try (InputStream packed = Program.class.getResourceAsStream("/invalid/toxi/" + machine + "/toxi")) {
            if (packed == null) {
                return null;
            }
            program = packed.readAllBytes();
        }
        String cache = System.getenv("XDG_CACHE_HOME");
        Path root = cache == null || cache.isEmpty() ? Path.of(System.getProperty("user.home"), ".cache") : Path.of(cache);
        Path target = root.resolve("toxi").resolve(hash(program)).resolve("toxi");
        if (!Files.isExecutable(target)) {
            Files.createDirectories(target.getParent());
            var permissions = PosixFilePermissions.asFileAttribute(PosixFilePermissions.fromString("rwx------"));
            Path part = Files.createTempFile(target.getParent(), "toxi", "", permissions);
            Files.write(part, program);
            Files.move(part, target, StandardCopyOption.ATOMIC_MOVE);
        }
        return target.toString();
    }

    private static String hash(byte[] bytes) {
        try {
            return HexFormat.of().formatHex(MessageDigest.getInstance("SHA-256").digest(bytes));
        } catch (NoSuchAlgorithmException error) {
            throw new IllegalStateException("every Java has SHA-256", error);
        }
    }

    private static String lastChange(String program) {
        try {
            return Files.getLastModifiedTime(Path.of(program)).toString();
        } catch (IOException error) {
            return "";
        }
    }

    private static String versionOf(String program, Duration limit) {
        String[] words = answer(List.of(program, "--version"), limit).split("\\s+");
        if (words.length < 2 || !words[0].equals("toxi")) {
            throw new ToxiException(program + " isn't the program `toxi`: it doesn't tell a version");
        }
        return words[1];
    }

    /**
     * Starts a command. Its environment is this process's without options of {@code serve}, since those of a suite are its own. Explanations of faults are
     * asked for unless it refuses them.
     */
    static Process start(List<String> command) {
        ProcessBuilder builder = new ProcessBuilder(command);
        builder.environment().keySet().removeIf(name -> name.startsWith("TOXI_") && !name.equals("TOXI_EXPLAIN"));
        builder.environment().putIfAbsent("TOXI_EXPLAIN", "1");
        try {
            return builder.start();
        } catch (IOException error) {
            throw new ToxiException(command.get(0) + " can't be started: " + error.getMessage(), error);
        }
    }

    /** What a command prints on standard output. Throws what it says on standard error where it fails. */
    static String answer(List<String> command, Duration limit) {
        Process process = start(command);
        WholeText printed = new WholeText(process.getInputStream());
        WholeText said = new WholeText(process.getErrorStream());
        try {
            process.getOutputStream().close();
            if (!process.waitFor(limit.toMillis(), TimeUnit.MILLISECONDS)) {
                throw new ToxiException.Timeout(command.get(0) + " didn't answer within " + limit);
            }
            if (process.exitValue() != 0) {
                throw ToxiFault.of(said.awaited(), process.exitValue());
            }
            return printed.awaited();
        } catch (IOException | InterruptedException error) {
            throw new ToxiException(command.get(0) + " was interrupted", error);
        } finally {
            process.destroyForcibly();
        }
    }
}
