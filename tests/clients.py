"""Clients that are served side by side: what they send, in which pieces and in which order, and what they are told."""
import io
import socket
import struct
import threading
import time

from program import (
    OFFICE, PAGES, PATIENCE, Client, accepted, all_of, assignments, framed, get, post, read_reply, readout, reply, run,
    same, telegram, topups, withdrawals,
)  # fmt: skip

REFUSED = "refused 12 Crc part 1 at 0 stated "
BUSY = "too many clients\n"


class Upload:
    """An upload: the bytes of its request, what its records are known by, and whether it's to be refused."""

    def __init__(self, path, body, *records, refused=False):
        self.path, self.request, self.records, self.refused = path, post(path, body), records, refused

    def check(self, status, line):
        """Fails where its reply isn't one that it may have; tells how many of its records were fresh."""
        if self.refused:
            assert status == 400 and line.startswith(REFUSED), (self.path, status, line)
            return 0
        words = line.split()
        assert status == 200 and words[:2] == ["accepted", "fresh"], (self.path, status, line)
        fresh = int(words[2])
        same(line, accepted(fresh, len(self.records) - fresh), f"records of {self.path}")
        return fresh

    def told(self):
        """The line that a trail has of it, behind the instant."""
        return f"{self.path} HTTP/1.1 {'400 Bad Request' if self.refused else '200 OK'}"


class Question:
    """A page that is asked for, with a text that has to stand on it."""

    def __init__(self, path, text=""):
        self.path, self.request, self.text = path, get(path), text

    def check(self, status, page):
        assert status == 200 and self.text in page, (self.path, status, page, self.text)
        return 0


def hours(number, count):
    """Stamps of so many hours of a day that no other client of up to 64 has, with the number of each hour."""
    day = f"24{number // 27 + 1:02}{number % 27 + 2:02}"
    return [(f"{day}{hour:02}0000W", number * 24 + hour) for hour in range(count)]


def broken(frame):
    """A telegram with a byte that was changed on the way."""
    return frame.replace(b"*kWh)", b"*kWH)", 1)


def requests_of(number):
    """What a client sends, of any number below 64: readings, one that the next client denies, a payment that is asked
    for behind it, one that is withdrawn, an owner, a readout, and an upload that is refused."""
    frames, records = [], []
    for stamp, hour in hours(number, 6):
        wh = 1_000_000 + 997 * hour
        frames.append(telegram(stamp, f"{wh // 1000:06}.{wh % 1000:03}"))
        records.append(stamp)
    denied = [(f"24040{it % 9 + 1}{it // 9:02}0000S", side) for it, side in ((number, 0), ((number + 1) % 64, 1))]
    shared = [telegram(stamp, f"00000{side}.000") for stamp, side in denied]
    paid = f"P{number},A{number % 2 + 1},{1_000 + number},2024-01-02T00:00:00Z"
    gone = f"Q{number // 2},A1,500,2024-01-03T00:00:00Z"
    start = f"4D31,{f'2024-0{number // 27 + 1}-{number % 27 + 2:02}T12:00:00Z'},A{number % 2 + 1}"
    shown = readout(f"2405{number % 28 + 1:02}", f"{number // 28:02}0000", f"1.8.0({1000 + number}.000*kWh)")
    return [
        Upload("/telegrams", b"".join(frames), *records),
        Upload("/topups", topups(paid), paid),
        Question("/export/topups", paid),
        Upload("/telegrams", b"".join(shared), *denied),
        Upload("/telegrams", broken(frames[0]), refused=True),
        Upload("/assignments", assignments(start), start),
        Question("/accounts/A1", "account A1\n"),
        Upload("/topups", topups(gone), gone),
        Upload("/withdrawals", withdrawals(f"topup,{gone}"), f"topup,{gone}"),
        Upload("/meters/Z7/readouts", shown, shown),
    ]


def cut(chance, data, most):
    """Bytes, cut into pieces of up to so many."""
    pieces = []
    while data:
        count = chance.randint(1, most)
        pieces.append(data[:count])
        data = data[count:]
    return pieces


# How a client sends its requests: into which pieces it cuts them.
MANNERS = {
    "one by one": lambda chance, requests: requests,
    "cut": lambda chance, requests: [it for data in requests for it in cut(chance, data, 200)],
    "trickled": lambda chance, requests: [it for data in requests for it in cut(chance, data, 8)],
    "pipelined": lambda chance, requests: [b"".join(requests)],
    "cut anywhere": lambda chance, requests: cut(chance, b"".join(requests), 1_000),
}


class Sender:
    """A client that sends its requests in one of these manners."""

    def __init__(self, server, number, manner, chance):
        self.manner, asked = manner, requests_of(number)
        self.asked = asked[:3] + chance.sample(asked[3:], len(asked) - 3)
        self.connection = server.connection()
        self.replies = self.connection.makefile("rb")
        self.pieces = MANNERS[manner](chance, [it.request for it in self.asked])[::-1]
        self.told = []

    def send_next(self):
        """Sends its next piece; who sends one by one reads the reply to its last request first."""
        if self.manner == "one by one" and len(self.told) + len(self.pieces) < len(self.asked):
            self.told.append(read_reply(self.replies))
        self.connection.sendall(self.pieces.pop())

    def end(self):
        """Sends no more, reads all that is still told, and answers how many of its records were fresh."""
        self.connection.shutdown(socket.SHUT_WR)
        while len(self.told) < len(self.asked):
            self.told.append(read_reply(self.replies))
        same(self.replies.read(), b"", f"what is told behind the replies to a client whose requests are {self.manner}")
        self.replies.close()
        self.connection.close()
        return sum(asked.check(*told) for asked, told in zip(self.asked, self.told))


def served_by_chance(server, chance, count):
    """So many clients, whose pieces are sent in a random order: what they asked, and how many records were fresh."""
    manners = list(MANNERS)
    senders = [Sender(server, it, manners[it % len(manners)], chance) for it in range(count)]
    left = list(senders)
    while left:
        sender = chance.choice(left)
        sender.send_next()
        if not sender.pieces:
            left.remove(sender)
    chance.shuffle(senders)
    fresh = sum(it.end() for it in senders)
    return [it for sender in senders for it in sender.asked], fresh


def by_pipe(chance, uploads):
    """All pages behind these uploads in a random order, as `pipe` tells them."""
    requests = [it.request for it in uploads]
    chance.shuffle(requests)
    status, out, err = run("pipe", OFFICE, given=b"".join(requests + [get(it) for it in PAGES]))
    same((status, err), (0, b""), "pipe")
    replies = io.BytesIO(out)
    for _ in requests:
        same(read_reply(replies)[0], 200, "an upload by pipe")
    return [(it, *read_reply(replies)) for it in PAGES]


def is_ended(connection, longest=PATIENCE):
    """Whether the server ends a connection, on which nothing else comes, within so many seconds."""
    connection.settimeout(longest)
    try:
        return connection.recv(1) == b""
    except ConnectionResetError:
        return True
    except TimeoutError:
        return False


def is_open(connection):
    """Whether a connection still stands, on which nothing comes."""
    connection.setblocking(False)
    try:
        return connection.recv(1) != b""
    except BlockingIOError:
        return True
    except ConnectionResetError:
        return False
    finally:
        connection.settimeout(PATIENCE)


def vanish(connection):
    """Breaks a connection, as a machine does that goes down."""
    connection.setsockopt(socket.SOL_SOCKET, socket.SO_LINGER, struct.pack("ii", 1, 0))
    connection.close()


def is_turned_away(server):
    """Whether a new client is told that there are too many, and its connection is ended at once."""
    with server.connection() as connection:
        return all_of(connection) == reply(503, BUSY, ends=True)


def own_uploads(number, count=30):
    """Uploads of one client for a server that is killed, each with two records that no other has."""
    made = []
    for it in range(count):
        if it % 3 == 2:
            lines = [f"K{number}-{it}-{half},A{half + 1},{number + it + 1},2024-01-02T00:00:00Z" for half in range(2)]
            made.append(("/topups", topups(*lines)))
        else:
            stamp = f"24{number // 27 + 1:02}{number % 27 + 2:02}{it % 24:02}{it // 24 * 30:02}00W"
            sets = [f"1-0:{code}({number:03}{it:03}.000*kWh)" for code in ("1.8.1", "2.8.1")]
            made.append(("/telegrams", framed([f"0-0:1.0.0({stamp})", "0-0:96.1.1(4D31)", *sets])))
    return [post(*it) for it in made]


class Uploader(threading.Thread):
    """A client that sends its uploads, one by one or all at once, to a server that is killed meanwhile, and counts
    those that were acknowledged."""

    def __init__(self, server, number):
        super().__init__(daemon=True)
        self.client, self.uploads, self.at_once = Client(server), own_uploads(number), number % 2 == 1
        self.acknowledged, self.wrong = 0, None

    def run(self):
        try:
            if self.at_once:
                self.client.send(b"".join(self.uploads))
            for it in self.uploads:
                if not self.at_once:
                    self.client.send(it)
                same(self.client.reply(), (200, accepted(2)), "an upload")
                self.acknowledged += 1
        except OSError:
            pass
        except AssertionError as wrong:
            self.wrong = wrong
        self.client.close()

    def again(self, server):
        """Sends all once more to a server behind the kill: what is there is whole, it is the beginning, and what was
        acknowledged is among it."""
        client = Client(server)
        lines = [client.asked(it) for it in self.uploads]
        client.close()
        held = lines.count((200, accepted(0, 2)))
        same(lines, [(200, accepted(0, 2))] * held + [(200, accepted(2))] * (len(lines) - held), "sent again")
        assert self.wrong is None and self.acknowledged <= held, (self.wrong, self.acknowledged, held)


class Waits(threading.Thread):
    """A client that sends uploads of its own one by one, and keeps how long it waited for the slowest reply."""

    def __init__(self, server, number):
        super().__init__(daemon=True)
        self.server, self.uploads, self.longest, self.answered = server, own_uploads(number), 0.0, 0

    def run(self):
        client = Client(self.server)
        for it in self.uploads:
            begun = time.monotonic()
            same(client.asked(it), (200, accepted(2)), "an upload beside clients that hinder")
            self.longest = max(self.longest, time.monotonic() - begun)
            self.answered += 1
        client.close()
