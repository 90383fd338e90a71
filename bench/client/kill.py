"""kill.py PQD MINUTES: what bench/kill.sh does."""

import copy
import multiprocessing
import os
import random
import shutil
import signal
import sys
import tempfile
import time
from collections import Counter

import histories
import load
from load import KINDS, PLAYERS, Connection, Different, Player, Server

RECORDS = int(os.environ.get("RECORDS", 512))
TURNS = 12
TOLD_NOTHING = {"durable": {"row": "nocall"}, "log": {"told": "none"}}


class Cut(Exception):
    """The server was killed: there is no reply."""


class CutConnection(Connection):
    def ask(self, **request):
        try:
            return super().ask(**request)
        except (OSError, Different) as error:
            raise Cut from error


class Remembering(Player):
    """A player that knows what it would be told in each queue, if the server began again now."""

    def __init__(self, client):
        super().__init__(client)
        self.told_next = {queue: TOLD_NOTHING[kind] for queue, kind in KINDS.items()}
        self.calls = 0

    def resolve(self, connection):
        """A call that was not answered is not sent again: its server began anew."""

    def note(self, connection, request, reply, begin):
        super().note(connection, request, reply, begin)
        self.calls += 1
        queue = request["queue"]
        if "reply" not in reply:
            return
        if KINDS[queue] == "log":
            self.told_next[queue] = {**reply, "number": request["number"], "told": "taken"}
        elif request["op"] == "take":
            self.told_next[queue] = {"row": reply["reply"]} | {key: reply[key] for key in reply if key == "got"}


def play(player, port, until):
    """Resolves the pending call, and calls at random until the time is over or the server is killed. The player as it
    is then."""
    try:
        connection = CutConnection(port)
        player.resolve(connection)
        while player.open and time.monotonic() < until:
            player.call(connection, random.choice(player.open), random.random() < 0.55)
        connection.close()
    except (Cut, OSError):
        pass
    return player


class Killed:
    """A broker's life over kills. `players` are as they are now, and `play` is what each of them does."""

    def __init__(self, pqd, folder, pool, players, play):
        self.pqd = pqd
        self.pool = pool
        self.image = f"{folder}/image"
        self.seen = Counter()
        self.players = players
        self.play_one = play
        self.server = None

    def play(self, seconds, kill=None):
        """All players at once, until the time is over; then the server is killed while they call, or they end."""
        until = time.monotonic() + seconds + (60 if kill else 0)
        before = sum(player.calls for player in self.players)
        playing = self.pool.starmap_async(self.play_one, [(player, self.server.port, until) for player in self.players])
        if kill:
            kill(seconds)
        self.players = playing.get()
        self.seen["calls"] += sum(player.calls for player in self.players) - before

    def end_server(self, is_stopping=False):
        """Kills it. It has not ended by itself, unless it is stopping."""
        if not is_stopping and self.server.process.poll() is not None:
            raise Different(f"the server ended by itself, with status {self.server.process.returncode}")
        self.server.process.send_signal(signal.SIGKILL)
        self.server.process.wait()
        self.server.process.stdout.close()

    def kill(self, seconds=0):
        time.sleep(seconds)
        self.end_server()
        self.seen["kills"] += 1


class Round(Killed):
    """A life whose server has an image. `kept` are the players as they were when the image was written that the broker
    would begin on."""

    def __init__(self, pqd, folder, pool):
        super().__init__(pqd, folder, pool, [Remembering(client) for client in range(PLAYERS)], play)
        self.server = Server(pqd, self.image, RECORDS)
        load.create_queues(self.server.port)
        self.stop()

    def begin(self):
        self.server = Server(self.pqd, self.image, RECORDS)

    def bytes(self):
        with open(self.image, "rb") as file:
            return file.read()

    def stop(self):
        self.server.stop()
        self.seen["stops"] += 1
        self.keep()

    def keep(self):
        self.kept = copy.deepcopy(self.players)
        self.kept_image = self.bytes()

    def go_back(self):
        """What came after the image is lost, and nothing else."""
        lost = {put.value for player in self.players for queue in KINDS for put in player.puts[queue] if put.answered}
        kept = {put.value for player in self.kept for queue in KINDS for put in player.puts[queue]}
        self.seen["values lost, all after a stop"] += len(lost - kept)
        if self.bytes() != self.kept_image:
            raise Different("the image changed, though the server was not stopped")
        counts = [player.count for player in self.players]
        self.players = copy.deepcopy(self.kept)
        # A value that was lost is put no second time: it is known if it shows again.
        for player, count in zip(self.players, counts):
            player.count = count

    def stop_and_kill(self):
        """A kill while the server stops: it leaves the old image or the new one."""
        connection = Connection(self.server.port)
        connection.socket.sendall(b'{"op":"stop"}\n')
        time.sleep(10 ** random.uniform(-3.5, 0))
        self.end_server(is_stopping=True)
        self.seen["kills"] += 1
        connection.close()
        if self.bytes() == self.kept_image:
            self.seen["kills within a stop, old image"] += 1
            self.go_back()
        else:
            self.seen["kills within a stop, new image"] += 1
            self.keep()

    def check(self):
        """The broker that begins on the image is the one of the last stop: what each client is told, the numbers, and
        all that the queues hold, which a broker on a copy of the image hands out."""
        copied = f"{self.image}.copy"
        shutil.copyfile(self.image, copied)
        server = Server(self.pqd, copied, RECORDS)
        try:
            self.check_told(server.port)
            load.check(self.players + load.drain(server.port))
        finally:
            server.process.kill()
            server.process.wait()
            server.process.stdout.close()
        os.remove(copied)
        self.seen["images checked"] += 1

    def check_told(self, port):
        connection = Connection(port)
        for player in self.players:
            for queue, wanted in player.told_next.items():
                told = connection.ask(op="told", client=player.client, queue=queue)
                if told != wanted:
                    raise Different(f"client {player.client} is told {told} in {queue}, and not {wanted}")
                if "number" in told:
                    self.check_numbers(connection, player, queue, wanted)
        connection.close()

    def check_numbers(self, connection, player, queue, told):
        """The last number sent again has its reply, and one after the next is a gap."""
        reply = {key: told[key] for key in told if key in ("reply", "got")}
        again = connection.ask(op="take", client=player.client, queue=queue, number=told["number"])
        after = connection.ask(op="take", client=player.client, queue=queue, number=told["number"] + 2)
        if again != reply or after.get("name") != "Gap":
            raise Different(f"client {player.client}, {queue}, {told}: sent again {again}, two on {after}")

    def turn(self):
        how = random.choice(["kill", "kill", "stop", "stop and kill"])
        self.begin()
        self.play(random.uniform(0.05, 0.6), self.kill if how == "kill" else None)
        if how == "kill":
            self.go_back()
        elif how == "stop":
            self.stop()
        else:
            self.stop_and_kill()
        self.check()

    def run(self, until):
        for _ in range(TURNS):
            if time.monotonic() > until or not all(player.open for player in self.players):
                break
            self.turn()
        self.begin()
        drainers = load.drain(self.server.port)
        self.stop()
        load.check(self.players + drainers)
        return self.seen


def live(make, minutes, said):
    """One broker's life after another, for so many minutes. Prints what was seen in them."""
    histories.test()
    begin = time.monotonic()
    seen, until = Counter(), begin + 60 * float(minutes)
    context = multiprocessing.get_context("fork")
    with context.Pool(PLAYERS) as pool:
        while time.monotonic() < until:
            with tempfile.TemporaryDirectory() as folder:
                life = make(folder, pool)
                try:
                    seen += life.run(until)
                finally:
                    life.server.process.kill()
            seen["brokers"] += 1
    counts = ", ".join(f"{kind} {count}" for kind, count in sorted(seen.items()))
    print(f"seconds {time.monotonic() - begin:.0f}, {counts}")
    print(said)


def told_of(main):
    """Does this with the words of the command line. A difference is printed, and leaves the status 1."""
    try:
        main(*sys.argv[1:])
    except (Different, Cut, OSError) as difference:
        print(f"different: {difference}")
        sys.exit(1)


def main(pqd, minutes):
    live(
        lambda folder, pool: Round(pqd, folder, pool),
        minutes,
        "each image is that of the last stop, and beside what came after one nothing is lost and nothing doubled: 0",
    )


if __name__ == "__main__":
    told_of(main)
