package invalid.toxi;

/** One of the two directions of a connection. */
public enum Stream {
    /** From the client to the server. */
    UPSTREAM("upstream"),
    /** From the server to the client. */
    DOWNSTREAM("downstream");

    final String word;

    Stream(String word) {
        this.word = word;
    }
}
