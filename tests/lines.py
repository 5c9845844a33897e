#!/usr/bin/env python3
"""The host example, and the guide's command for captures, on lines that are pseudo-terminals.

usage: tests/lines.py SEED -- HOST [WORD...]

Bytes cut anywhere, signals in between, the other end closing and coming back, an end that takes no replies: the table and the
replies are those of the same bytes on standard input, uncut. Ends 'N passed, M failed'."""
import fcntl
import os
import random
import re
import select
import signal
import struct
import subprocess
import sys
import tempfile
import termios
import time

PATIENCE = 60  # seconds until something that should happen counts as missing
FRAMINGS = {"binary": [], "ascii": ["--ascii"]}


def guide_command():
    """The guide's line that captures, for any line and file; None where it has not just one."""
    guide = os.path.join(os.path.dirname(os.path.abspath(__file__)), "../docs/GUIDE.md")
    with open(guide, encoding="utf-8") as text:
        found = re.findall(r"^    (stty -F (\S+) .* && cat (\S+) > (\S+))$", text.read(), re.MULTILINE)
    if len(found) != 1 or found[0][1] != found[0][2]:
        return None
    command, line, _, capture = found[0]
    return command.replace(line, "{line}").replace(f"> {capture}", "> {capture}")


# ---- bytes for a line, from document 01

def summed(message):
    """The length, the message and its two sums."""
    sum1 = sum2 = 0
    for byte in bytes([len(message)]) + message:
        sum1 = (sum1 + byte) % 255
        sum2 = (sum2 + sum1) % 255
    return bytes([len(message)]) + message + bytes([sum1, sum2])


def framed(framing, data):
    if framing == "ascii":
        return b"\n" + data.hex().upper().encode() + b"\r"
    return b"\x7e" + data.replace(b"\x7d", b"\x7d\x5d").replace(b"\x7e", b"\x7d\x5e")


def frame(framing, message):
    return framed(framing, summed(message))


def are_replies(framing, data):
    """Whether these are frames of the three replies and nothing else."""
    frames = b"|".join(re.escape(frame(framing, bytes([reply]))) for reply in (0x1D, 0x1E, 0x1F))
    return re.fullmatch(b"(%s)+" % frames, data) is not None


def message(chance):
    number, length = chance.choice(((4, 8), (5, 10), (6, 9), (7, 9), (8, 12)))
    body = [chance.randrange(256) for _ in range(length - 1)]
    if number == 5:
        body[0] = chance.randrange(241)
    if number == 6:
        body[0] = chance.randrange(8)
    return bytes([number | chance.choice((0, 0x80))] + body)


def long_message(chance, length):
    """Of a number that there is not, or with bit 6 set: longer than each of the 41."""
    return bytes([chance.choice((0x22, 0xA2, 0x44, 0xC4))] + [chance.randrange(256) for _ in range(length - 1)])


def stream(chance, framing, frames=80):
    """Frames, some of them long or damaged, and noise: what a terminal would take as keys is among the bytes."""
    parts = []
    for k in range(frames):
        part = bytearray(frame(framing, message(chance) if k % 10 else long_message(chance, chance.randrange(19, 256))))
        if chance.randrange(6) == 0:
            part[chance.randrange(len(part))] ^= 1 << chance.randrange(8)
        if chance.randrange(6) == 0:
            part = part[:chance.randrange(len(part))]
        parts.append(bytes(part))
        if chance.randrange(4) == 0:
            parts.append(bytes(chance.choice(b"\x03\x04\x0d\x11\x13\x15\x1a\x1c\x7f\x00\xff") for _ in range(5)))
    return b"".join(parts) + frame(framing, b"\x87" + bytes(8))  # the last byte is answered


# ---- a line and its other end

def until(what, seconds=PATIENCE):
    end = time.monotonic() + seconds
    while not what():
        if time.monotonic() > end:
            return False
        time.sleep(0.005)
    return True


class Line:
    """A pseudo-terminal as it comes, echo on, under a name that stays; this program is its other end."""

    def __init__(self, path):
        self.path, self.heard = path, bytearray()
        self.far, self.near = os.openpty()
        os.set_blocking(self.far, False)
        os.symlink(os.ttyname(self.near), path)

    def settings(self):
        return termios.tcgetattr(self.near)

    def hear(self):
        while select.select([self.far], [], [], 0)[0]:
            try:
                self.heard += os.read(self.far, 4096)
            except BlockingIOError:
                return

    def send(self, data, hearing=True):
        while data:
            if hearing:
                self.hear()
            try:
                data = data[os.write(self.far, data):]
            except BlockingIOError:
                time.sleep(0.001)

    def is_read(self):
        """Whether every byte sent was read, as seen for half a second: the kernel hands bytes on with a delay."""
        for _ in range(10):
            self.hear()
            if struct.unpack("i", fcntl.ioctl(self.near, termios.FIONREAD, b"\0" * 4))[0]:
                return False
            time.sleep(0.05)
        return True

    def hears(self, replies):
        """Waits for that many bytes, as long as they keep coming."""
        while len(self.heard) < len(replies):
            before = len(self.heard)
            if not until(lambda: self.hear() or len(self.heard) > before):
                return False
        return True

    def close(self):
        os.unlink(self.path)  # first: the next pseudo-terminal that anybody opens has the same number
        os.close(self.far)
        os.close(self.near)


class Host:
    """The program on a line; what it says goes to a file. None outlives this program: it would open the lines of the next one."""

    started = []

    def __init__(self, home, command, words, stdin=subprocess.DEVNULL, stdout=subprocess.DEVNULL, pass_fds=()):
        self.said_in, self.table_in = os.path.join(home, "said"), os.path.join(home, "table")
        with open(self.said_in, "wb") as said:
            self.process = subprocess.Popen(command + ["--table", self.table_in] + words, stdin=stdin, stdout=stdout,
                                            stderr=said, start_new_session=True, pass_fds=pass_fds)
        Host.started.append(self)

    def said(self):
        with open(self.said_in, "rb") as said:
            return said.read().decode()

    def said_often(self, text, times):
        return until(lambda: self.said().count(text) >= times)

    def send(self, number):
        self.process.send_signal(number)

    def table(self):
        with open(self.table_in, "rb") as table:
            return table.read()

    def end(self, number=signal.SIGTERM):
        """Its status; None where it does not end."""
        try:
            self.send(number)
            return self.process.wait(PATIENCE)
        except subprocess.TimeoutExpired:
            return None

    def leave(self):
        if self.process.poll() is None:
            self.process.kill()
            self.process.wait()


class Trials:
    def __init__(self, seed, command):
        self.chance, self.command, self.passed, self.failed = random.Random(seed), command, 0, 0

    def note(self, name, *held):
        ok = all(held)
        self.passed, self.failed = self.passed + ok, self.failed + (not ok)
        print(f"{'passed' if ok else 'FAILED'}: {name}{'' if ok else ' ' + str(list(held))}", flush=True)

    def uncut(self, home, data, words):
        """Table, replies and last overview of the bytes on standard input."""
        path = os.path.join(home, "uncut")
        with open(path, "wb") as file:
            file.write(data)
        with open(path, "rb") as stdin, open(path + ".replies", "wb") as stdout:
            host = Host(home, self.command, words, stdin, stdout)
            status = host.process.wait(PATIENCE)
        with open(path + ".replies", "rb") as replies:
            return status, host.table(), replies.read(), host.said()

    def pieces(self, data):
        at = 0
        while at < len(data):
            some = self.chance.choice((1, 1, 2, 3, 5, 8, 40))
            yield data[at:at + some]
            at += some

    def started(self, home, line, words, pass_fds=()):
        host = Host(home, self.command, words + [line.path], pass_fds=pass_fds)
        self.hearing = host.said_often("hearing", 1)
        return host

    # ---- the trials

    def cut_with_signals(self, home, framing):
        words, data = FRAMINGS[framing], stream(self.chance, framing)
        status, table, replies, overview = self.uncut(home, data, words)
        line = Line(os.path.join(home, "line"))
        before = line.settings()
        host = self.started(home, line, words + ["--speed", "19200"])
        during = line.settings()
        answered = True
        for k, piece in enumerate(self.pieces(data)):
            line.send(piece)
            if self.chance.randrange(3) == 0:
                host.send(signal.SIGUSR1)
                time.sleep(self.chance.choice((0, 0.001, 0.01)))
            if k % 40 == 39:  # signals that come together count once
                shown = host.said().count("site:")
                host.send(signal.SIGUSR1)
                answered = answered and host.said_often("site:", shown + 1)
        read = line.hears(replies)
        ended = host.end(self.chance.choice((signal.SIGTERM, signal.SIGINT, signal.SIGHUP)))
        line.hear()
        self.note(f"{framing}: cut anywhere, signals in between: the table of the uncut stream", self.hearing, status == 0,
                  read, ended == 0, host.table() == table, any(table))
        self.note(f"{framing}: the replies of the uncut stream, in its framing, and no echo", line.heard == replies,
                  are_replies(framing, replies))
        self.note(f"{framing}: the overview of the uncut stream at the end, and others before",
                  host.said().endswith(overview), answered)
        raw = [during[0], during[1], during[3]] == [0, 0, 0] and during[2] & ~0o10017 == termios.CS8 | termios.CREAD | termios.CLOCAL
        self.note(f"{framing}: the line was raw, 8N1 and 19200 baud, and is as it was", raw,
                  during[4:6] == [termios.B19200] * 2, line.settings() == before, before[3] & termios.ECHO != 0)
        host.leave()
        line.close()

    def going_and_coming(self, home, framing):
        words, data = FRAMINGS[framing], stream(self.chance, framing)
        table, cuts = self.uncut(home, data, words)[1], sorted(self.chance.sample(range(1, len(data)), 2))
        line = Line(os.path.join(home, "line"))
        host = self.started(home, line, words + ["--wait", "20"])
        seen = [self.hearing]
        for turn, (a, b) in enumerate(zip([0] + cuts, cuts + [len(data)])):
            if turn:
                line.close()
                seen.append(host.said_often("went away", turn))
                host.send(signal.SIGUSR1)
                seen.append(host.said_often("site:", turn))
                line = Line(line.path)
                seen.append(host.said_often("hearing", turn + 1))
            for piece in self.pieces(data[a:b]):
                line.send(piece)
            seen.append(until(line.is_read))
        ended = host.end()
        self.note(f"{framing}: the other end closes twice, in a frame too, and comes back: the same table", *seen, ended == 0,
                  host.table() == table)
        host.leave()
        line.close()

    def away_at_the_end(self, home):
        line = Line(os.path.join(home, "line"))
        host = self.started(home, line, ["--wait", "60000"])
        line.close()
        away = host.said_often("went away", 1)
        self.note("a line that is away: a signal still ends the wait, with status 1", self.hearing, away, host.end() == 1)
        host.leave()

    def signals_alone(self, home):
        line = Line(os.path.join(home, "line"))
        host = self.started(home, line, [])
        answered = True
        for turn in range(60):
            time.sleep(self.chance.choice((0, 0, 0.001, 0.003)))
            host.send(signal.SIGUSR1)
            answered = answered and host.said_often("site:", turn + 1)
        line.hear()
        self.note("60 signals, each answered with no byte on the line", self.hearing, answered, line.heard == b"", host.end() == 0)
        host.leave()
        line.close()

    def nobody_takes_replies(self, home):
        """Start after start: each is answered, until the line takes no more."""
        starts = b"\x7e" * 30000
        replies = frame("binary", b"\x1e") * (len(starts) - 1)
        line = Line(os.path.join(home, "line"))
        host = self.started(home, line, [])
        while starts and select.select([], [line.far], [], 1)[1]:
            starts = starts[os.write(line.far, starts[:512]):]
        stuck = bool(starts)
        for _ in range(50):
            host.send(signal.SIGUSR1)
            time.sleep(0.001)
        line.send(starts)
        got = line.hears(replies)
        self.note("a line that takes no byte for a while, signals meanwhile: no reply is lost", self.hearing, stuck, got,
                  line.heard == replies, host.said().count("site:") > 0)
        line.send(b"\x7e" * 4096, hearing=False)
        time.sleep(0.2)
        self.note("a signal ends it while the line takes no byte", host.end() == 0)
        host.leave()
        line.close()

    def on_standard_input(self, home):
        data = stream(self.chance, "binary", 20)
        _, table, replies, _ = self.uncut(home, data, [])
        line = Line(os.path.join(home, "line"))
        before = line.settings()
        host = Host(home, self.command, [], line.near, line.near)
        raw = until(lambda: line.settings()[3] == 0)
        line.send(data)
        read = line.hears(replies)
        ended = host.end()
        line.hear()
        self.note("a terminal as standard input and output: set up too", raw, read, ended == 0, host.table() == table,
                  line.heard == replies, line.settings() == before)
        host.leave()
        line.close()

    def no_line(self, home):
        capture = os.path.join(home, "uncut")
        with open(capture, "rb") as file:
            before = file.read()
        for name, path in (("is not there", os.path.join(home, "none")), ("is a file", capture), ("is a folder", home)):
            host = Host(home, self.command, [path])
            status = host.process.wait(PATIENCE)
            self.note(f"a line that {name}: told, status 1", status == 1, "cannot open" in host.said())
        with open(capture, "rb") as file:
            self.note("and the file is as it was", file.read() == before, bool(before))

    def captured(self, home, line, how, data):
        capture = os.path.join(home, "capture")
        open(capture, "wb").close()
        shell = subprocess.Popen(["sh", "-c", how.format(line=line.path, capture=capture)], start_new_session=True)
        time.sleep(0.5)
        for piece in self.pieces(data):
            line.send(piece)
        until(lambda: os.path.getsize(capture) >= len(data), 2)
        os.killpg(shell.pid, signal.SIGTERM)
        shell.wait()
        line.hear()
        with open(capture, "rb") as file:
            return file.read() == data and line.heard == b""

    def captures(self, home):
        """The guide's command and, so that the trial is seen to tell them apart, a plain cat."""
        data, guide = bytes(range(256)) + stream(self.chance, "binary", 20), guide_command()
        self.note("docs/GUIDE.md has one command that captures", guide is not None)
        for how, wanted in ((guide or "false", True), ("cat {line} > {capture}", False)):
            line = Line(os.path.join(home, "line"))
            name = "it captures byte for byte" if wanted else "and without stty the bytes do not come through"
            self.note(name, self.captured(home, line, how, data) == wanted)
            line.close()

    def run(self, home):
        for framing in FRAMINGS:
            self.cut_with_signals(home, framing)
            self.going_and_coming(home, framing)
        self.away_at_the_end(home)
        self.signals_alone(home)
        self.nobody_takes_replies(home)
        self.on_standard_input(home)
        self.no_line(home)
        self.captures(home)


def main(words, kind, usage):
    """Runs the trials of a kind; gives the status."""
    if words == ["--help"]:
        print(usage)
        return 0
    if len(words) < 3 or not words[0].isdecimal() or words[1] != "--":
        print(usage, file=sys.stderr)
        return 2
    trials = kind(int(words[0]), words[2:])
    signal.signal(signal.SIGTERM, lambda *_: sys.exit(143))
    try:
        with tempfile.TemporaryDirectory() as home:
            trials.run(home)
    finally:
        for host in Host.started:
            host.leave()
    print(f"{trials.passed} passed, {trials.failed} failed")
    return int(trials.failed > 0)


if __name__ == "__main__":
    sys.exit(main(sys.argv[1:], Trials, __doc__))
