"""Ports of the loopback."""
import random
import socket
import threading

# Below those that the system gives to whoever wants any: a port stays free while nobody listens there for a while.
LOW, HIGH = 10_000, 32_000


def is_free(port):
    try:
        socket.create_server(("127.0.0.1", port)).close()
        return True
    except OSError:
        return False


def free_ports(count):
    """Ports that nobody uses."""
    found = []
    while len(found) < count:
        port = random.randrange(LOW, HIGH)
        if port not in found and is_free(port):
            found.append(port)
    return found


class Port:
    """One whose connections have a thread each, in which `talk` is called."""

    def __init__(self, port=0):
        self.listener = socket.create_server(("127.0.0.1", port))
        self.port = self.listener.getsockname()[1]
        threading.Thread(target=self.serve, daemon=True).start()

    def serve(self):
        while True:
            try:
                connection, _ = self.listener.accept()
            except OSError:
                return
            threading.Thread(target=self.talk, args=(connection,), daemon=True).start()

    def end(self):
        self.listener.shutdown(socket.SHUT_RDWR)
        self.listener.close()
