"""What the scripts of this folder share: the built program and its server, telegrams and readouts, a run of tests."""
import contextlib
import functools
import os
import pty
import re
import shutil
import signal
import socket
import sqlite3
import struct
import subprocess
import sys
import tempfile
import termios
import time

TOP = os.path.normpath(os.path.join(os.path.dirname(os.path.abspath(__file__)), ".."))
EXAMPLES = f"{TOP}/examples"
PROGRAM = f"{TOP}/crates/powerbook/out/powerbook"
OFFICE = f"{EXAMPLES}/sample.toml"
# A test may take so many seconds; each command and each answer has to come within PATIENCE: less than the minute that a
# server waits for a silent client, so that one which waits in vain is seen.
LONGEST = 180
PATIENCE = 30

# What is told of a store that isn't opened, by its cause: why, and what to do; and then the fault's line.
UNOPENED = {
    cause: f"powerbook: {why}\ndevice failed\n"
    for cause, why in (
        ("in use", "the store is in use: ask the server that has it open, or stop it"),
        ("not writable", "the store may not be written: see to the rights on its file, on the -wal file beside it and "
         "on their folder"),
        ("journal", "another program left a journal beside the store: open the store with sqlite3 first"),
        ("no file", "no store can be at this path: its folder isn't there, or something else than a file with one name "
         "is"),
        ("log alone", "the store's file is gone or empty, and the -wal file beside it may hold uploads: put the file "
         "back, or move both away"),
        ("no database", "the store is no SQLite database, or is damaged: look at the path, else take the latest copy"),
        ("damaged", "the store is damaged: take the latest copy, or load a new store from the uploads"),
        ("disk", "the store can't be read or written: look at the disk"),
    )
}


# Stores of older versions, each made by the powerbook of its time, and what is told when one is brought to version 3.
OLDER = {version: f"{TOP}/tests/version_{version}.db" for version in (1, 2)}
UPGRADED = (
    "powerbook: the store was of an older version and is of version 3 now: an older powerbook won't open it any more\n"
)


# How long the head of a log is, and that of each frame behind it.
LOG_HEAD, FRAME_HEAD = 32, 24


class Late(Exception):
    """A test took longer than it may."""


def content(path):
    """The bytes of a file."""
    with open(path, "rb") as file:
        return file.read()


def written(path, data):
    """Writes a file, of bytes or of a text, and answers its path."""
    with open(path, "wb") as file:
        file.write(data if isinstance(data, bytes) else data.encode())
    return path


def run(*words, given=b"", by=(PROGRAM,), patience=PATIENCE, **options):
    """Runs the program on words and an input, bytes or a file: its exit status, and what it wrote to both streams."""
    source = {"input": given} if isinstance(given, bytes) else {"stdin": given}
    ran = subprocess.run([*by, *words], **source, capture_output=True, timeout=patience, check=False, **options)
    return ran.returncode, ran.stdout, ran.stderr


def same(told, wanted, what=""):
    """Fails where what was told isn't what was wanted, and shows both."""
    assert told == wanted, f"{what}: told {told!r}, wanted {wanted!r}"


def told(words, status, out="", err="", given=b""):
    """Runs the program, and compares its exit status and both streams, byte for byte."""
    same(run(*words, given=given), (status, out.encode(), err.encode()), f"{words}")


def as_nobody():
    """The words before a command that is run as nobody, where this is run by root, who may read all."""
    if os.geteuid() != 0:
        return []
    assert shutil.which("setpriv"), "root may read all, so setpriv is needed (Debian's package util-linux)"
    return ["setpriv", "--reuid=65534", "--regid=65534", "--clear-groups"]


class Terminal:
    """A terminal that programs write to, at its far side, and that shows, at its near side, the bytes as written."""

    def __init__(self):
        self.near, self.far = pty.openpty()
        modes = termios.tcgetattr(self.far)
        modes[1] &= ~termios.OPOST
        modes[3] &= ~termios.ECHO
        termios.tcsetattr(self.far, termios.TCSANOW, modes)

    def type(self, data):
        os.write(self.near, data)

    def shown(self, end=None):
        """What it shows up to a text; without one, until no program has it open any more."""
        if end is None:
            self.hand_over()
        told = self.read_up_to(end, b"")
        if end is None or end not in told:
            # What was written last may come a moment behind the first refusal to read.
            time.sleep(0.1)
            told = self.read_up_to(end, told)
        return told

    def read_up_to(self, end, told):
        """What it shows up to a text, behind what was read before; or until nothing can be read."""
        with contextlib.suppress(OSError):
            while (end is None or end not in told) and (part := os.read(self.near, 65_536)):
                told += part
        return told

    def hand_over(self):
        """Leaves the far side to the programs."""
        if self.far is not None:
            os.close(self.far)
            self.far = None

    def __enter__(self):
        return self

    def __exit__(self, *_):
        self.hand_over()
        os.close(self.near)


def at_terminal(*words, given=b"", by=(PROGRAM,), **options):
    """Runs the program as `run` does, with a terminal as standard error."""
    with Terminal() as terminal, tempfile.TemporaryFile() as source, tempfile.TemporaryFile() as out:
        source.write(given)
        source.seek(0)
        process = subprocess.Popen([*by, *words], stdin=source, stdout=out, stderr=terminal.far, **options)
        try:
            err = terminal.shown()
            status = process.wait(PATIENCE)
        finally:
            process.kill()
        out.seek(0)
        return status, out.read(), err


def crc_word(register):
    """What eight single steps make of a register of the CRC16."""
    for _ in range(8):
        register = register >> 1 ^ (0xA001 if register & 1 else 0)
    return register


CRC_WORDS = [crc_word(it) for it in range(256)]


def crc16(data):
    """The CRC16 of a telegram: x^16+x^15+x^2+1, least significant bit first, from 0."""
    register = 0
    for byte in data:
        register = register >> 8 ^ CRC_WORDS[(register ^ byte) & 0xFF]
    return register


def framed(lines):
    """A telegram of these data lines, with its CRC."""
    text = "".join(f"{it}\r\n" for it in ["/PWB5X", "", *lines]).encode() + b"!"
    return text + b"%04X\r\n" % crc16(text)


def telegram(stamp, *values, meter="4D31"):
    """A telegram of a meter at a stamp, with sets of registers as '1.8.1(001000.000*kWh)'; a bare value is I1's."""
    shown = [f"1-0:{it}" if "(" in it else f"1-0:1.8.1({it}*kWh)" for it in values]
    return framed([f"0-0:1.0.0({stamp})", f"0-0:96.1.1({meter})", *shown])


def readout(date, hour, *values):
    """A data readout at a date and time, with sets of registers as '1.8.0(1000.000*kWh)'."""
    lines = [f"0.9.1({hour})", f"0.9.2({date})", *values]
    block = "".join(f"{it}\r\n" for it in lines).encode() + b"!\r\n\x03"
    check = 0
    for byte in block:
        check ^= byte
    return b"/PWB5Z7\r\n\x02" + block + bytes([check])


def rows(header, *lines):
    """A body of rows under their header."""
    return "".join(f"{it}\n" for it in [header, *lines]).encode()


def assignments(*lines):
    return rows("meter,start,account", *lines)


def topups(*lines):
    return rows("reference,account,cents,instant", *lines)


def withdrawals(*lines):
    return rows("kind,first,second,third,fourth", *lines)


def load(room, store, kind, body, meter=None, office=OFFICE, wanted=None):
    """Loads a body by the command `load`, and answers its line; fails where it's refused."""
    file = written(f"{room}/upload", body)
    given = run("load", office, store, kind, file, *(["--meter", meter] if meter else []))
    assert given[0] == 0 and given[2] == b"", f"load of {kind}: {given!r}"
    line = given[1].decode()
    wanted = wanted or r"accepted fresh [0-9]+ repeated [0-9]+\n"
    assert re.fullmatch(wanted, line), f"load of {kind}: told {line!r}, wanted {wanted!r}"
    return line


def accepted(fresh, repeated=0):
    return f"accepted fresh {fresh} repeated {repeated}\n"


def export(store, what, office=OFFICE):
    """A table of a store, by the command `export`."""
    status, out, err = run("export", office, store, what)
    same((status, err), (0, b""), f"export {what}")
    return out.decode()


def statement(store, account="A1", office=OFFICE):
    """The statement of an account of a store, by the command `statement`."""
    status, out, err = run("statement", office, store, account)
    same((status, err), (0, b""), f"statement {account}")
    return out.decode()


ASKED = [
    ("statement", "A1"), ("statement", "A2"), ("export", "accounts"), ("export", "readings"), ("export", "assignments"),
    ("export", "topups"), ("export", "withdrawals"), ("export", "energy"), ("export", "falls"), ("export", "disputes"),
]  # fmt: skip


def answers(store):
    """All that is told of a store of the sample office: of each question the exit status and both streams."""
    return {f"{command} {what}": run(command, OFFICE, store, what) for command, what in ASKED}


def remove(store):
    """Removes a store with the file beside it, where they are there."""
    for path in (store, f"{store}-wal"):
        with contextlib.suppress(FileNotFoundError):
            os.remove(path)


def euro(nano):
    """An amount in nano-euro as it's printed: the greatest whole number of cents that isn't above it."""
    cents = nano // 10_000_000
    return f"{'-' * (cents < 0)}{abs(cents) // 100}.{abs(cents) % 100:02}"


def statement_text(account, bands, topped, balance):
    """A statement: bands with their names and both energies in Wh, top-ups in cents, the balance in nano-euro."""
    lines = [f"account {account}", f"band{'import Wh':>16}{'export Wh':>16}"]
    lines += [f"{name:<4}{bought:>16}{sold:>16}" for name, bought, sold in bands]
    lines += [f"topped up EUR {euro(topped * 10_000_000)}", f"balance EUR {euro(balance)}"]
    return "".join(f"{it}\n" for it in lines)


def library(room, name):
    """Builds a library of this folder, to be preloaded into the program, and answers its path."""
    path = f"{room}/{name}.so"
    words = ["cc", "-O1", "-Wall", "-shared", "-fPIC", "-o", path, f"{TOP}/tests/{name}.c"]
    subprocess.run(words, timeout=PATIENCE, check=True)
    return path


def free_port():
    with socket.socket() as held:
        held.bind(("127.0.0.1", 0))
        return held.getsockname()[1]


class NotServing(AssertionError):
    """A server ended before its first line: its exit status and what it wrote to both streams."""


class Server:
    """The program serving a store at a free port of 127.0.0.1, from its first line on; where a count is stated, so many
    connections."""

    def __init__(self, store, count=None, office=OFFICE, words=(), port=None, tries=5, by=(PROGRAM,), **options):
        options = {"stdin": subprocess.DEVNULL, "stdout": subprocess.PIPE, "stderr": subprocess.PIPE, **options}
        words = [*words, *([] if count is None else ["--count", str(count)])]
        for _ in range(tries):
            self.port = port or free_port()
            self.process = subprocess.Popen([*by, "serve", office, store, "--port", str(self.port), *words], **options)
            self.line = self.process.stdout.readline()
            if self.line:
                break
            ended = self.ended()
        else:
            raise NotServing(*ended)
        same(self.line, b"listening 127.0.0.1:%d\n" % self.port, "the first line of serve")

    def connection(self):
        """A bare connection to the server."""
        made = socket.create_connection(("127.0.0.1", self.port), timeout=PATIENCE)
        made.setsockopt(socket.IPPROTO_TCP, socket.TCP_NODELAY, 1)
        return made

    def descriptors(self):
        """How many files and sockets it has open."""
        return len(os.listdir(f"/proc/{self.process.pid}/fd"))

    def memory(self):
        """The memory that it has resident, and the most that it had, in kB."""
        lines = content(f"/proc/{self.process.pid}/status").decode().splitlines()
        shown = dict(it.split(":", 1) for it in lines if ":" in it)
        return tuple(int(shown[it].split()[0]) for it in ("VmRSS", "VmHWM"))

    def used(self):
        """The processor time that it has used so far, in seconds."""
        return int(content(f"/proc/{self.process.pid}/schedstat").split()[0]) / 1_000_000_000

    def ended(self):
        """Waits until the server ends by itself: its exit status and what stands behind its first line."""
        out, err = self.process.communicate(timeout=PATIENCE)
        return self.process.returncode, out, err

    def end_input(self):
        """Ends the pipe that is its standard input."""
        self.process.stdin.close()
        self.process.stdin = None

    def kill(self):
        self.process.kill()
        self.process.communicate()

    def __enter__(self):
        return self

    def __exit__(self, *_):
        if self.process.poll() is None:
            self.kill()


def post(path, body, *headers):
    """The bytes of a request that uploads a body."""
    lines = [f"POST {path} HTTP/1.1", f"Content-Length: {len(body)}", *headers, "", ""]
    return "\r\n".join(lines).encode() + body


def get(path, *headers):
    return "\r\n".join([f"GET {path} HTTP/1.1", *headers, "", ""]).encode()


PHRASES = {
    200: "OK",
    400: "Bad Request",
    403: "Forbidden",
    404: "Not Found",
    405: "Method Not Allowed",
    413: "Payload Too Large",
    501: "Not Implemented",
    503: "Service Unavailable",
    507: "Insufficient Storage",
}


def reply(status, body, ends=False, kind="text/plain"):
    """The bytes of a reply, as they have to be."""
    lines = [f"HTTP/1.1 {status} {PHRASES[status]}", f"Content-Type: {kind}", f"Content-Length: {len(body)}"]
    lines += ["Connection: close"] * ends
    return "\r\n".join([*lines, "", ""]).encode() + body.encode()


def all_of(connection):
    """What a connection gives until its other side has ended."""
    parts = []
    while part := connection.recv(65_536):
        parts.append(part)
    return b"".join(parts)


def talk(server, data, slowly=False):
    """What a server answers on a connection of its own to bytes with an end behind them."""
    with server.connection() as connection:
        for part in [data[it : it + 1] for it in range(len(data))] if slowly else [data]:
            connection.sendall(part)
        connection.shutdown(socket.SHUT_WR)
        return all_of(connection)


def one_reply(connection):
    """Reads one reply off a connection, and nothing of the next one: its status and its body."""
    head = head_of_reply(connection)
    lines = head.decode().split("\r\n")
    length = int(next(it for it in lines if it.startswith("Content-Length: "))[16:])
    body = b""
    while len(body) < length:
        part = connection.recv(length - len(body))
        if not part:
            raise ConnectionError(f"the connection ended behind {body!r}")
        body += part
    return int(lines[0].split()[1]), body.decode()


def head_of_reply(connection):
    """Reads the head of a reply off a connection: what has come is looked at first, and taken up to the head's end."""
    head = b""
    while not head.endswith(b"\r\n\r\n"):
        come = connection.recv(4_096, socket.MSG_PEEK)
        if not come:
            raise ConnectionError(f"the connection ended behind {head!r}")
        before, end, _ = (head + come).partition(b"\r\n\r\n")
        head += connection.recv(len(before + end) - len(head))
    return head


PAGES = ["/accounts/A1", "/accounts/A2", "/accounts", "/falls", "/disputes", "/export/readings", "/export/energy",
         "/export/assignments", "/export/topups", "/export/withdrawals", "/export/readings/4D31"]


def pages(connection):
    """All that a server tells of its book, asked over a connection: of each page the status and the body."""
    connection.sendall(b"".join(get(it) for it in PAGES))
    return [(it, *one_reply(connection)) for it in PAGES]


def read_reply(replies):
    """Reads one reply off a buffered stream of replies: its status and its body."""
    first = line = replies.readline()
    length = 0
    while line != b"\r\n":
        if not line.endswith(b"\r\n"):
            raise ConnectionError(f"the replies ended behind {line!r}")
        if line.startswith(b"Content-Length: "):
            length = int(line[16:])
        line = replies.readline()
    body = replies.read(length)
    if len(body) < length:
        raise ConnectionError(f"the replies ended {length - len(body)} bytes early")
    return int(first.split()[1]), body.decode()


class Client:
    """A connection to a server for many requests, whose replies are read through a buffer."""

    def __init__(self, server):
        self.connection = server.connection()
        self.replies = self.connection.makefile("rb")

    def send(self, request):
        self.connection.sendall(request)

    def reply(self):
        return read_reply(self.replies)

    def asked(self, request):
        self.send(request)
        return self.reply()

    def close(self):
        self.replies.close()
        self.connection.close()


def rows_of(store, query, *values):
    """The rows that a query gives of a store that nothing has open, by SQLite's own library."""
    with contextlib.closing(sqlite3.connect(f"file:{store}?mode=ro", uri=True)) as connection:
        return connection.execute(query, values).fetchall()


def tables_of(store, tables):
    """The rows of each of these tables of a store that nothing has open, in their order, by SQLite's own library."""
    with contextlib.closing(sqlite3.connect(f"file:{store}?mode=ro", uri=True)) as connection:
        return {it: sorted(connection.execute(f"SELECT * FROM {it}").fetchall()) for it in tables}


def log_sum(data):
    """The checksum of a log's bytes, as it stands in the log."""
    first = second = 0
    for one, other in struct.iter_unpack("<2I", data):
        first = (first + one + second) & 0xFFFF_FFFF
        second = (second + other + first) & 0xFFFF_FFFF
    return struct.pack(">2I", first, second)


def state_of(store):
    """What decides all that is told of a store that nothing has open: the bytes of its file, of the log beside it and of
    a journal, None where one isn't there. A log that each closing makes anew has no frame, and salts that were drawn
    for it: they and their checksum are left away, where that is right."""
    paths = (store, f"{store}-wal", f"{store}-journal")
    file, log, journal = (content(it) if os.path.exists(it) else None for it in paths)
    if log and LOG_HEAD <= len(log) < LOG_HEAD + FRAME_HEAD and log[24:32] == log_sum(log[:24]):
        log = log[:16] + log[32:]
    return file, log, journal


def of_state(ask):
    """Has a question about a store, given its path and other words, asked once of each state that a store has: what
    was told of one is told of all that are the same, byte for byte."""
    known = {}

    @functools.wraps(ask)
    def told(store, *words):
        asked = (*state_of(store), *words)
        if asked not in known:
            known[asked] = ask(store, *words)
        return known[asked]

    return told


def in_large_pages():
    """Has the program take its memory from the kernel in large pages, where that can be: of a short run over a store
    more than half of the processor's time goes into handing out 8 MB in small ones. It asks for as much as ever."""
    os.environ.setdefault("GLIBC_TUNABLES", f"glibc.malloc.hugetlb=1:glibc.malloc.top_pad={12 << 20}")


def in_memory():
    """Has folders of tests made in memory, where that can be: each opening of a store syncs its files a dozen times."""
    if "TMPDIR" not in os.environ and os.access("/dev/shm", os.W_OK):
        tempfile.tempdir = "/dev/shm"


def need(script, *tools):
    """Ends the script where one of these commands isn't there, or the program isn't built."""
    missing = [f"{it} is not on PATH" for it in tools if not shutil.which(it)]
    if not os.access(PROGRAM, os.X_OK):
        missing.append("the program isn't built (crates/powerbook/out/powerbook)")
    if missing:
        print(f"{script}: {missing[0]}\n0 passed, 1 failed")
        sys.exit(1)


class Beside:
    """A test in a process of its own, beside the others."""

    def __init__(self, *asked):
        self.told, telling = os.pipe()
        self.child = os.fork()
        if self.child == 0:
            passed, took = run_test(*asked)
            os.write(telling, f"{passed:d} {took}".encode())
            os._exit(0)
        os.close(telling)

    def ended(self):
        """Whether it passed, and the seconds that it took."""
        told = os.read(self.told, 100).split() or [b"0", b"0"]
        os.waitpid(self.child, 0)
        return int(told[0]) == 1, float(told[1])


def run_test(script, name, test, longest):
    """Runs a test in a new folder that it is given: whether it passed, and the seconds that it took."""
    room, begun, passed = tempfile.mkdtemp(), time.monotonic(), False
    signal.alarm(longest)
    try:
        test(room)
        passed = True
    except Exception as fault:  # Whatever goes wrong, the other tests are still run.
        print(f"{script}: {name}: FAILED: {type(fault).__name__}: {fault}", flush=True)
    finally:
        signal.alarm(0)
        shutil.rmtree(room, ignore_errors=True)
    took = time.monotonic() - begun
    if os.environ.get("TIMES"):
        print(f"{script}: {name}: {took:.1f} s", flush=True)
    return passed, took


def run_tests(script, tests, longest=LONGEST, beside=()):
    """Runs tests by name, each in a new folder that it is given, and tells 'N passed, M failed' last. A name that no
    test has fails too. Those that are named as `beside`, which mostly wait, run beside the others."""

    def too_late(*_):
        raise Late(f"longer than {longest} seconds")

    signal.signal(signal.SIGALRM, too_late)
    asked = sys.argv[1:]
    unknown = [it for it in asked if it not in tests]
    print("".join(f"{script}: {it}: FAILED: there is no such test\n" for it in unknown), end="", flush=True)
    chosen = {name: test for name, test in tests.items() if not asked or name in asked}
    waiting = {name: Beside(script, name, chosen[name], longest) for name in beside if name in chosen}
    ended = {name: run_test(script, name, test, longest) for name, test in chosen.items() if name not in waiting}
    ended.update({name: it.ended() for name, it in waiting.items()})
    passed = sum(it for it, _ in ended.values())
    failed = len(unknown) + len(ended) - passed
    slowest = max(ended, key=lambda it: ended[it][1], default=None)
    if slowest:
        print(f"{script}: the longest took {ended[slowest][1]:.0f} s ({slowest})")
    print(f"{passed} passed, {failed} failed")
    sys.exit(1 if failed or not passed else 0)
