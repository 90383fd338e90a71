#!/usr/bin/env python3
"""A recording of a queue that is right, or loses one value: recordings.py EVENTS CLIENTS CRASHES SEED [LOST]

EVENTS lines of CLIENTS clients, with so many crashes spread over them. With LOST, a share from 0 to 1, the first value is
lost that is in the queue when this share of the lines is written.
"""
import random, sys


class Run:
    def __init__(self, draw, clients, out):
        self.draw, self.out, self.queue, self.next, self.lines = draw, out, [], 0, 0
        self.under_way = {name: None for name in (f"c{number}" for number in range(clients))}
        self.names, self.front = list(self.under_way), 0

    def write(self, text):
        self.out.write(text + "\n")
        self.lines += 1

    def begin(self, client):
        puts = self.draw.random() < (0.7 if len(self.queue) - self.front < 20 else 0.4)
        if puts:
            self.next += 1
            self.write(f'{{"client":"{client}","op":"put","value":{self.next}}}')
        else:
            self.write(f'{{"client":"{client}","op":"take"}}')
        self.under_way[client] = [self.next if puts else None, None]

    def effect(self, call):
        if call[1] is not None:
            return
        if call[0] is not None:
            self.queue.append(call[0])
            call[1] = '"done"'
        elif self.front < len(self.queue):
            call[1] = f'"got","got":{self.queue[self.front]}'
            self.front += 1
        else:
            call[1] = '"empty"'

    def step(self):
        client = self.draw.choice(self.names)
        call = self.under_way[client]
        if call is None:
            self.begin(client)
        elif self.draw.random() < 0.4:
            self.effect(call)
        else:
            self.effect(call)
            self.write(f'{{"client":"{client}","reply":{call[1]}}}')
            self.under_way[client] = None

    def crash(self):
        self.write('{"op":"crash"}')
        for client in self.names:
            self.under_way[client] = None


def main():
    events, clients, crashes, seed = map(int, sys.argv[1:5])
    lost = int(float(sys.argv[5]) * events) if len(sys.argv) > 5 else None
    run = Run(random.Random(seed), clients, sys.stdout)
    every = events // (crashes + 1)
    while run.lines < events:
        if crashes and run.lines % every == every - 1:
            run.crash()
        else:
            run.step()
        if lost is not None and run.lines >= lost and run.front < len(run.queue):
            run.front, lost = run.front + 1, None


main()
