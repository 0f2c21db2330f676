package invalid.toxi;

import java.io.IOException;
import java.net.InetSocketAddress;
import java.net.Socket;
import java.util.LinkedHashMap;
import java.util.Map;

/** Bound sockets that don't listen: a connect is refused, and no other process gets the port. */
final class HeldPorts {
    /** Between two looks whether the program has stopped listening, in milliseconds. */
    private static final long PAUSE = 1;

    private final Map<String, Socket> sockets = new LinkedHashMap<>();

    /** Holds these ports, once the program has stopped listening there. */
    void hold(Iterable<String> addresses) {
        for (String address : addresses) {
            long end = System.nanoTime() + Serving.STOP_LIMIT.toNanos();
            while (!holds(address)) {
                if (System.nanoTime() > end) {
                    throw new ToxiException("another process has taken " + address);
                }
                pause();
            }
        }
        share(false);
    }

    private static void pause() {
        try {
            Thread.sleep(PAUSE);
        } catch (InterruptedException error) {
            Thread.currentThread().interrupt();
            throw new ToxiException("a wait for toxi was interrupted", error);
        }
    }

    private boolean holds(String address) {
        if (sockets.containsKey(address)) {
            return true;
        }
        int colon = address.lastIndexOf(':');
        String host = address.substring(0, colon).replaceAll("[\\[\\]]", "");
        Socket socket = new Socket();
        try {
            // Else the connections that have just ended would keep the port from being bound.
            socket.setReuseAddress(true);
            socket.bind(new InetSocketAddress(host, Integer.parseInt(address.substring(colon + 1))));
            sockets.put(address, socket);
            return true;
        } catch (IOException taken) {
            close(socket);
            return false;
        }
    }

    /** Lets the program listen at them. It sets SO_REUSEADDR too, which both sockets need. */
    void lend() {
        share(true);
    }

    private void share(boolean isShared) {
        try {
            for (Socket socket : sockets.values()) {
                socket.setReuseAddress(isShared);
            }
        } catch (IOException error) {
            throw new ToxiException("a port can't be held", error);
        }
    }

    void release() {
        sockets.values().forEach(HeldPorts::close);
        sockets.clear();
    }

    private static void close(Socket socket) {
        try {
            socket.close();
        } catch (IOException closed) {
            // It is given up anyway.
        }
    }
}
