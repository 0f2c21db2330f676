package invalid.toxi;

import java.io.IOException;
import java.util.List;
import java.util.Map;

/** A test that is killed: it tells the address of a proxy and its seed, and goes on until its standard input ends. */
final class ServedCase {
    private ServedCase() {}

    static Process start(Map<String, String> environment) throws IOException {
        List<String> command = List.of(LifeTest.java(), "-cp", System.getProperty("java.class.path"), ServedCase.class.getName(), Service.ADDRESS);
        ProcessBuilder builder = new ProcessBuilder(command).redirectError(ProcessBuilder.Redirect.INHERIT);
        builder.environment().putAll(environment);
        return builder.start();
    }

    public static void main(String[] arguments) throws IOException {
        try (Toxi toxi = Toxi.builder().proxy("shop", arguments[0]).start()) {
            System.out.println(toxi.address("shop") + " " + Long.toUnsignedString(toxi.seed()));
            System.in.readAllBytes();
        }
    }
}
