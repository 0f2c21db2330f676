"""A server that sends back what it gets."""
import socket
import threading


def served_back():
    """The address of such a server."""
    listener = socket.create_server(("127.0.0.1", 0), backlog=64)
    threading.Thread(target=accept_all, args=(listener,), daemon=True).start()
    return "127.0.0.1:%d" % listener.getsockname()[1]


def accept_all(listener):
    while True:
        peer, _ = listener.accept()
        threading.Thread(target=send_back, args=(peer,), daemon=True).start()


def send_back(peer):
    try:
        with peer:
            while data := peer.recv(4096):
                peer.sendall(data)
    except OSError:
        pass
