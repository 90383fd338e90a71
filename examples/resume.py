#!/usr/bin/env python3
"""A client's process that is killed while it puts into `pqd serve`, and the next one, which goes on: resume.py PORT.

Each call is noted in a state file before it is sent. So the next process knows what was under way. It sends that again
with its number, and learns what it came to: the put took effect once, before the kill or now.
"""
import os
import signal
import subprocess
import sys
import tempfile
import threading
import time

# Without this line: pip install ./clients/python
sys.path.insert(0, os.path.join(os.path.dirname(os.path.abspath(__file__)), "../clients/python"))
from wistaku import Broker


def first(broker):
    """The first process: it puts 0, 1, 2 and so on, until it is killed."""
    queue = broker.log("resumed", create=True)
    queue.put(b"0")
    threading.Timer(0.02, os.kill, [os.getpid(), signal.SIGKILL]).start()
    for number in range(1, 200):
        queue.put(b"%d" % number)
        time.sleep(0.001)


def following(broker):
    """The next process."""
    queue = broker.log("resumed")
    [last] = queue.settle()
    print(f"under way was a {last.op}, which took effect")
    queue.put(b"the last one")
    wanted = [b"%d" % number for number in range(int(last.value) + 1)] + [b"the last one"]
    taken = queue.take_many(len(wanted) + 1)
    print("took", "each message once, and in order" if taken == wanted else f"{taken}, and not {wanted}")


def main(port, state=None):
    address = f"127.0.0.1:{port}"
    if state is not None:
        first(Broker([address], client=3, state=state))
    with tempfile.TemporaryDirectory() as folder:
        state = f"{folder}/state"
        process = subprocess.run([sys.executable, __file__, port, state])
        print("the first process was killed:", process.returncode == -signal.SIGKILL)
        with Broker([address], client=3, state=state) as broker:
            following(broker)


if __name__ == "__main__":
    main(*sys.argv[1:])
