package invalid.toxi;

/** A client that stays for many runs. */
final class AnswersCase {
    private AnswersCase() {}

    public static void main(String[] arguments) {
        Runs.answer(proxies -> proxies.getOrDefault("shop", "").length());
    }
}
