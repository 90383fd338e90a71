#!/usr/bin/env python3
"""Records what eight threads call on a Python queue, and are answered: python3 record.py | pqx check

Any queue with `put` and `get_nowait` will do in place of `queue.Queue`.
"""
import queue, random, threading
from recorder import Recorder

recorder, recorded = Recorder(), queue.Queue()

def run(client):
    for number in range(500):
        value = f"{client}:{number}"
        if random.random() < 0.5:
            recorder.put(client, value, lambda: recorded.put(value))
        else:
            recorder.take(client, recorded.get_nowait, empty=queue.Empty)

threads = [threading.Thread(target=run, args=(client,)) for client in "abcdefgh"]
[thread.start() for thread in threads]
[thread.join() for thread in threads]
recorder.write()
