#!/usr/bin/env python3
"""A client of `pqd serve`: puts a message into a queue, and takes it out again."""
import json, socket, sys

lines = socket.create_connection(("127.0.0.1", int(sys.argv[1]))).makefile("rw")

def ask(**request):
    print(json.dumps(request), file=lines, flush=True)
    return json.loads(lines.readline())

print(ask(op="create", queue="jobs", kind="log"))
print(ask(op="put", client=0, queue="jobs", number=1, value=b"hello".hex()))
print(bytes.fromhex(ask(op="take", client=1, queue="jobs", number=1)["got"]).decode())
