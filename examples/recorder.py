"""Records what clients of a queue call and are answered, as `pqx check` reads it (docs/HISTORIES.md).

    recorder = Recorder()
    recorder.put("a", 5, lambda: jobs.put(5))             # each in its thread or process
    recorder.take("b", jobs.get_nowait, empty=queue.Empty)
    recorder.write()                                      # the lines: pqx check < FILE

A line is written before each call, and one after its answer, so a recorded call contains the real one. A call that
raises anything but `empty` is left open, and the exception goes on: say `crash`, or `gave_up`, or what was learnt.
"""
import json, sys, threading

class Recorder:
    def __init__(self):
        self.lines, self.lock = [], threading.Lock()

    def note(self, **line):
        """A line, as it stands."""
        with self.lock:
            self.lines.append(line)

    def put(self, client, value, call):
        """Records a call that puts the value. The answer is the call's own."""
        self.note(client=client, op="put", value=value)
        answer = call()
        self.note(client=client, reply="done")
        return answer

    def take(self, client, call, empty=()):
        """Records a call that takes. It found nothing if it answers None, or raises `empty`."""
        self.note(client=client, op="take")
        try:
            value = call()
        except empty:
            value = None
        self.note(client=client, reply="empty") if value is None else self.note(client=client, reply="got", got=value)
        return value

    def gave_up(self, client):
        """Nobody will answer the client's call; it may take effect yet."""
        self.note(client=client, reply="unknown")

    def refused(self, client):
        """The client's call certainly did nothing."""
        self.note(client=client, reply="refused")

    def crash(self):
        """Everything stopped; what was open then will never be answered."""
        self.note(op="crash")

    def write(self, file=sys.stdout):
        """Writes the lines."""
        with self.lock:
            print("\n".join(json.dumps(line) for line in self.lines), file=file)
