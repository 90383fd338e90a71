"""door.py PART PQD: who is served over connections, for tests/door.sh. A case is a line: a name, a tab, and what is wrong.

secrets   which files have a secret, and what the start says
hello     the first line of a connection, right and wrong, and a client of clients/python
crowd     as many connections as may be open, and one more
idle      connections over which no line comes are closed, and the others are not
"""

import contextlib
import json
import os
import socket
import subprocess
import sys
import tempfile
import time

TOP = os.path.dirname(os.path.dirname(os.path.abspath(__file__)))
sys.path.insert(0, f"{TOP}/clients/python")
from wistaku import Broker, Denied

SECRET = "correct horse battery staple, and more"
LIST = b'{"op":"list"}\n'
NONE = b'{"queues":[]}\n'
WELCOME = b'{"reply":"welcome"}\n'
DENIED = b'{"error":37,"name":"Denied"}\n'
FULL = b'{"error":31,"name":"Full"}\n'
BAD_REQUEST = b'{"error":25,"name":"BadRequest"}\n'


def case(name, found, wanted):
    wrong = "" if found == wanted else f"found {found!r}, and wanted {wanted!r}"
    print(name, wrong.replace("\n", "; ").replace("\t", " "), sep="\t", flush=True)


def hello(secret=SECRET, **more):
    return json.dumps({"op": "hello", "secret": secret, **more}).encode() + b"\n"


@contextlib.contextmanager
def file_of(content):
    with tempfile.NamedTemporaryFile() as file:
        file.write(content)
        file.flush()
        yield file.name


@contextlib.contextmanager
def serving(pqd, *options):
    """A server, and its port. It is ended by a kill, if the case did not end it."""
    words = [pqd, "serve", "--port", "0", *options]
    with subprocess.Popen(words, stdout=subprocess.PIPE, stderr=subprocess.PIPE) as server:
        try:
            server.port = int(server.stdout.readline().rsplit(b":", 1)[1])
            yield server
        finally:
            server.kill()


def connect(server, *said):
    connection = socket.create_connection(("127.0.0.1", server.port), 20)
    for text in said:
        connection.sendall(text)
    return connection


def heard(connection, lines=1):
    """So many lines of what is replied, or fewer where the connection ends before."""
    text = b""
    while text.count(b"\n") < lines:
        try:
            more = connection.recv(4096)
        except ConnectionResetError:
            break
        if not more:
            break
        text += more
    return text


def to_end(connection):
    return heard(connection, 1 << 30)


def replied(server, *said, lines=1):
    with connect(server, *said) as connection:
        return heard(connection, lines)


def ended(server, *said):
    """What is replied until the server closes the connection."""
    with connect(server, *said) as connection:
        return to_end(connection)


def refused(pqd, path):
    ran = subprocess.run([pqd, "serve", "--port", "0", "--secret", path], capture_output=True, text=True, timeout=20)
    return ran.returncode, ran.stdout, ran.stderr


def secrets(pqd):
    short, long = "pqd: a secret has 32 bytes or more\n", "pqd: a secret has 240 bytes at most\n"
    no_text = "pqd: a secret is one line of UTF-8 without control characters\n"
    for name, content, said in (
        ("no byte", b"", short),
        ("31 bytes", b"s" * 31, short),
        ("31 bytes and a newline", b"s" * 31 + b"\n", short),
        ("241 bytes", b"s" * 241, long),
        ("a file that does not end in time", b"s" * 10_000_000, long),
        ("two lines", b"s" * 32 + b"\n\n", no_text),
        ("the end of a line of another system", b"s" * 32 + b"\r\n", no_text),
        ("a byte that is no text", b"s" * 32 + b"\xff", no_text),
    ):
        with file_of(content) as path:
            case(f"secret: {name}", refused(pqd, path), (1, "", said))
    case("secret: no file", refused(pqd, "/nowhere/secret"), (1, "", "pqd: 26 ReadFailed\n"))
    for name, content, secret in (
        ("32 bytes", b"s" * 32, "s" * 32),
        ("240 bytes", b"s" * 240, "s" * 240),
        ("240 bytes, each written as two", b'"' * 240 + b"\n", '"' * 240),
        ("letters beyond ASCII", "ä".encode() * 40 + b"\n", "ä" * 40),
    ):
        with file_of(content) as path, serving(pqd, "--secret", path) as server:
            case(f"secret: {name}", replied(server, hello(secret)), WELCOME)
    with file_of(SECRET.encode()) as path, serving(pqd, "--secret", path) as server:
        case("the start", server.stderr.readline().decode(),
             f"pqd: whoever says the secret at 127.0.0.1:{server.port} is served: nothing is encrypted\n")


def first_lines(server):
    """First lines that say the secret, and some that do not."""
    spaced = f'{{ "secret" : "{SECRET}",\t"op":"hello" }}'.encode()
    case("keys in another order", replied(server, spaced + b"\n"), WELCOME)
    case("escapes", replied(server, b'{"op":"hello","secret":"\\u0063' + SECRET[1:].encode() + b'"}\n'), WELCOME)
    case("512 bytes", replied(server, spaced.ljust(512) + b"\n"), WELCOME)
    case("513 bytes", ended(server, spaced.ljust(513) + b"\n"), DENIED)
    case("a line that does not end", ended(server, b"{" * 600), DENIED)
    for name, line in (
        ("another secret", hello("x" * len(SECRET))),
        ("the beginning of the secret", hello(SECRET[:-1])),
        ("more than the secret", hello(SECRET + "!")),
        ("no secret", b'{"op":"hello"}\n'),
        ("a number as a secret", hello(5)),
        ("one key more", hello(SECRET, client=1)),
        ("another op", json.dumps({"op": "hullo", "secret": SECRET}).encode() + b"\n"),
        ("a request", LIST),
        ("the secret alone", SECRET.encode() + b"\n"),
        ("an empty line", b"\n"),
        ("no text", b"\xff\n"),
        ("an empty secret", hello("")),
    ):
        case(f"denied: {name}", ended(server, line), DENIED)
    with connect(server, hello()[:-1]) as connection:
        connection.shutdown(socket.SHUT_WR)
        case("a hello that ends without a newline", to_end(connection), WELCOME)
    with connect(server) as connection:
        connection.shutdown(socket.SHUT_WR)
        case("nothing", to_end(connection), b"")


def told(pqd, path):
    with serving(pqd, "--secret", path, "--workers", "1") as server:
        silent, half = connect(server), connect(server, hello()[:7])
        trickles = connect(server)
        for at in range(len(hello())):
            trickles.sendall(hello()[at:at + 1])
            if at % 10 == 0:
                case(f"one who trickles keeps nobody: {at}", replied(server, hello() + LIST, lines=2), WELCOME + NONE)
        case("a hello that trickles", heard(trickles), WELCOME)
        half.sendall(hello()[7:] + LIST)
        case("a hello in two parts, and a request behind it", heard(half, 2), WELCOME + NONE)
        with connect(server, hello()) as connection:
            case("a hello alone", heard(connection), WELCOME)
            for _ in range(3):
                connection.sendall(LIST)
                case("requests behind it", heard(connection), NONE)
            connection.sendall(hello())
            case("a second hello", heard(connection), BAD_REQUEST)
        create = b'{"op":"create","queue":"a","kind":"log"}\n'
        case("what is asked behind a wrong hello", ended(server, hello("x" * 40) + create + b'{"op":"stop"}\n'), DENIED)
        case("is not done", replied(server, hello() + LIST, lines=2), WELCOME + NONE)
        first_lines(server)
        silent.sendall(hello() + LIST)
        case("who was silent comes in", heard(silent, 2), WELCOME + NONE)


def clients(pqd, path):
    with tempfile.TemporaryDirectory() as folder:
        with serving(pqd, "--secret", path, "--journal", f"{folder}/journal") as server:
            address = f"127.0.0.1:{server.port}"
            with Broker([address], client=0, secret=SECRET) as broker:
                queue = broker.log("jobs", create=True)
                queue.put(b"hello")
                case("a client that knows the secret", queue.take(), b"hello")
            for name, secret in ("another secret", "x" * 40), ("no secret", None):
                try:
                    found = Broker([address], client=0, secret=secret).queues()
                except Exception as error:
                    found = type(error)
                case(f"a client with {name}", found, Denied)


def without(pqd):
    with serving(pqd) as server:
        case("a hello where no secret is asked for", replied(server, hello() + LIST, lines=2), BAD_REQUEST + NONE)


def hellos(pqd):
    with file_of(SECRET.encode() + b"\n") as path:
        told(pqd, path)
        clients(pqd, path)
    without(pqd)


def crowd(pqd):
    with serving(pqd, "--workers", "4") as server:
        crowd = []
        for number in range(1, 18):
            crowd.append(connect(server, LIST))
            case(f"connection {number} of four workers", heard(crowd[-1]), NONE)
        for connection in crowd:
            connection.sendall(LIST)
        case("all of them go on", [heard(it) for it in crowd], [NONE] * 17)
    for most in 1, 5, 40:
        with serving(pqd, "--connections", str(most)) as server:
            crowd = [connect(server, LIST) for _ in range(most)]
            case(f"{most} may be open", [heard(it) for it in crowd], [NONE] * most)
            for _ in range(2):
                case(f"{most + 1} may not", ended(server), FULL)
            crowd.pop().close()
            case("another one in the place of one that ended", again(server), NONE)


def again(server):
    """What is replied to a request that is sent until there is room for its connection."""
    for _ in range(200):
        with contextlib.suppress(OSError):
            reply = replied(server, LIST)
            if reply != FULL:
                return reply
        time.sleep(0.05)
    return FULL


def open_at(server):
    """How many connections the server has open."""
    links = [os.readlink(f"/proc/{server.pid}/fd/{it}") for it in os.listdir(f"/proc/{server.pid}/fd")]
    return sum(it.startswith("socket:") for it in links) - 1


def open_after(server, wanted):
    """The same, once it is what is wanted, or after five seconds."""
    for _ in range(100):
        if open_at(server) == wanted:
            break
        time.sleep(0.05)
    return open_at(server)


def busy(connection, seconds):
    """Sends a request ten times a second, and says whether all were replied to."""
    until = time.monotonic() + seconds
    while time.monotonic() < until:
        connection.sendall(LIST)
        if heard(connection) != NONE:
            return False
        time.sleep(0.1)
    return True


def trickle(connection, seconds):
    """Sends a byte ten times a second, and no newline, until the connection is closed; says whether it was."""
    until = time.monotonic() + seconds
    with contextlib.suppress(OSError):
        while time.monotonic() < until:
            connection.sendall(b" ")
            time.sleep(0.1)
        return False
    return True


def pour(connection):
    """Sends requests, and reads no reply, until nothing more is taken."""
    connection.settimeout(0.3)
    with contextlib.suppress(OSError):
        while True:
            connection.sendall(LIST * 1000)


def idle(pqd):
    with serving(pqd, "--idle", "1", "--workers", "2") as server:
        begun = time.monotonic()
        silent = connect(server)
        case("a silent one", to_end(silent), b"")
        case("is closed after a second", 0.9 < time.monotonic() - begun < 3, True)
        silent, speaks = connect(server), connect(server)
        case("one that speaks", busy(speaks, 3), True)
        case("stays alone", (open_after(server, 1), to_end(silent)), (1, b""))
        case("one that sends a byte at a time is closed", trickle(connect(server), 4), True)
        case("and the other one", to_end(speaks), b"")
        crowd = [connect(server, LIST) for _ in range(100)]
        case("a hundred are open", open_after(server, 100), 100)
        case("until they are silent", [to_end(it) for it in crowd], [NONE] * 100)
        case("then none is", open_after(server, 0), 0)
        full = connect(server)
        pour(full)
        case("one that reads no reply is closed", open_after(server, 0), 0)
        case("what comes then is served", replied(server, LIST), NONE)
    with serving(pqd) as server:
        silent = connect(server)
        time.sleep(2)
        case("without --idle nobody is closed", open_at(server), 1)
        silent.close()
    with file_of(SECRET.encode()) as path, serving(pqd, "--idle", "1", "--secret", path) as server:
        waits = connect(server, hello()[:9])
        case("one before the door", to_end(waits), b"")
        case("one inside", to_end(connect(server, hello())), WELCOME)


{"secrets": secrets, "hello": hellos, "crowd": crowd, "idle": idle}[sys.argv[1]](sys.argv[2])
