"""resident.py PQD: what bench/resident.sh does."""

import re
import socket
import subprocess
import sys
import tempfile
import threading

LIST = b'{"op":"list"}\n'
AT_ONCE = 5_000
COUNTS = [20_000, 1_000_000, 10_000_000]


def ask(connection):
    """Sends so many requests at once, and reads their replies."""
    sender = threading.Thread(target=connection.sendall, args=(LIST * AT_ONCE,))
    sender.start()
    replies = 0
    while replies < AT_ONCE:
        replies += connection.recv(1 << 20).count(b"\n")
    sender.join()


def resident(process):
    """Kilobytes."""
    with open(f"/proc/{process.pid}/status") as status:
        return int(re.search(r"VmRSS:\s*(\d+)", status.read())[1])


def main(pqd):
    with tempfile.TemporaryDirectory() as folder:
        words = [pqd, "serve", "--port", "0", "--image", f"{folder}/image"]
        server = subprocess.Popen(words, stdout=subprocess.PIPE, text=True)
        port = int(re.search(r"(\d+)\s*$", server.stdout.readline())[1])
        connection = socket.create_connection(("127.0.0.1", port))
        asked, first = 0, None
        for count in COUNTS:
            while asked < count:
                ask(connection)
                asked += AT_ONCE
            now = resident(server)
            first = first or now
            print(f"after {count:,} requests: {now:,} KB, {now / first:.2f} of the first")
        connection.sendall(b'{"op":"stop"}\n')
        connection.recv(100)
        connection.close()
        server.wait(timeout=60)


main(sys.argv[1])
