#!/usr/bin/env python3
"""The host example against a made gateway on a pseudo-terminal: commands until they are acknowledged, and the log.

usage: tests/gateway.py SEED -- HOST [WORD...]

The gateway answers at once, late, after some sendings, with 1Eh, or not at all, talks of other things meanwhile, and cuts its
bytes anywhere. Every command ends in the way that it chose. One of newer firmware sends long messages until they are rejected,
one on a noisy cable sends a frame again. What was last heard about a zone is asked, and is what the gateway last said of it, also
when more was said than a log holds. Ends 'N passed, M failed'."""
import os
import re
import sys
import time

sys.dont_write_bytecode = True
import lines  # noqa: E402
from lines import FRAMINGS, PATIENCE, Host, Line, Trials, frame, framed, long_message, summed, until  # noqa: E402

TICK = 0.1  # seconds, in place of a half: a command is given up after 24, which a gateway that gets little time must not miss
REPLIES = (b"\x1d", b"\x1e", b"\x1f")
ENDS = {0x1D: "acknowledged", 0x1C: "failed", 0x1F: "rejected", 0x12: "answered"}
USER_INFORMATION = bytes((0x12, 1, 0x12, 0x34, 0x56, 0, 1))

# What the gateway says to the first, second .. sending: (seconds later, number). None: nothing. Every command that it neither
# ends nor lets be given up ends by its last word.
PLANS = {
    "at once": [(0, 0x1D)],
    "late": [(3.5 * TICK, 0x1D)],
    "the third": [None, None, (0, 0x1D)],
    "1Eh first": [(0, 0x1E), (0, 0x1E), (0, 0x1D)],
    "1Eh always": [(0, 0x1E)] * 4,
    "silent": [],
    "failed": [(0, 0x1C)],
    "failed late": [None, (2 * TICK, 0x1C)],
    "rejected": [(0, 0x1F)],
    "1Eh, then rejected": [(0, 0x1E), (0, 0x1F)],
    "answered": [(0, 0x12)],
    "12h does not end it": [(0, 0x12), (0, 0x1F)],
}
GIVEN_UP = ("1Eh always", "silent")


def command(chance, number):
    """A good one of the 14, flag set or not: document 01's lengths and checked values."""
    lengths = {0x29: 4, 0x2B: 12, 0x2C: 3, 0x31: 13, 0x34: 8, 0x35: 5, 0x36: 7, 0x37: 4, 0x3A: 6, 0x3B: 7, 0x3C: 6, 0x3D: 4, 0x3E: 3,
               0x3F: 2}
    checked = {0x29: {1: (0, 15), 2: (0, 15), 3: (0x28, 0x28)}, 0x2B: {2: (0, 0)}, 0x31: {2: (0x20, 0x3F)}, 0x3C: {4: (0, 7)},
               0x3B: {1: (0, 99), 2: (1, 12), 3: (1, 31), 4: (0, 23), 5: (0, 59), 6: (1, 7)}, 0x3D: {1: (0, 7)}, 0x3E: {1: (0, 15)}}
    least_and_most = [checked.get(number, {}).get(k, (0, 255)) for k in range(1, lengths[number])]
    return bytes([number | chance.choice((0, 0x80))] + [chance.randint(*pair) for pair in least_and_most])


def flagged(message):
    return bytes([message[0] | 0x80]) + message[1:]


def taken_frames(framing, data):
    """The messages of whole frames at the beginning of what the host sent, each written as it must be; and the rest."""
    messages = []
    while data:
        end = data.find(b"\n" if framing == "ascii" else b"\x7e", 1)
        part = data if end < 0 else data[:end]
        recovered = re.sub(b"\x7d(.)", lambda m: bytes([m[1][0] ^ 0x20]), part[1:], flags=re.DOTALL)
        if framing == "ascii":
            recovered = bytes.fromhex(part[1:].decode().strip("\r")) if part.endswith(b"\r") else b""
        if not recovered or len(recovered) < recovered[0] + 3:
            return messages, data
        message = recovered[1:recovered[0] + 1]
        if frame(framing, message) != part:
            raise ValueError(f"the host sent no frame: {part.hex()}")
        messages.append(message)
        data = data[len(part):]
    return messages, data


class Gateway:
    """The other end of a line, for a list of commands and what it plans for each."""

    def __init__(self, chance, line, framing, commands, plans, talks=True):
        self.chance, self.line, self.framing, self.talks = chance, line, framing, talks
        self.commands, self.plans = [flagged(c) for c in commands], plans
        self.at, self.sendings, self.ended_at = 0, [0] * len(commands), None
        self.replies, self.wrong, self.times = [], [], []
        self.later, self.queue, self.said, self.rest = [], b"", b"", b""

    def say(self, message, after=0):
        self.later.append((time.monotonic() + after, message))

    def answer(self, after, number):
        message = USER_INFORMATION if number == 0x12 else bytes([number])
        self.say(flagged(message) if self.chance.randrange(2) else message, after)

    def talk(self):
        """Of zones and partitions, at times damaged: an intact frame is still heard after it."""
        part = bytearray(frame(self.framing, lines.message(self.chance)))
        if self.chance.randrange(4) == 0:
            part[self.chance.randrange(len(part))] ^= 1 << self.chance.randrange(8)
        if self.chance.randrange(4) == 0:
            part = part[:self.chance.randrange(len(part))]
        self.queue += bytes(part)

    def may_be_followed(self):
        """Whether the front was ended by what was written so far, or went out four times and may be given up."""
        ended = self.ended_at is not None and len(self.said) >= self.ended_at
        return ended or self.sendings[self.at] == 4

    def hear(self, message):
        if message in REPLIES:
            self.replies.append(message)
            return
        follows = self.at + 1 < len(self.commands) and message == self.commands[self.at + 1] and self.may_be_followed()
        if follows:
            self.at, self.ended_at = self.at + 1, None
        elif message != self.commands[self.at]:
            self.wrong.append(message)
            return
        self.times.append((self.at, time.monotonic()))
        self.sendings[self.at] += 1
        plan, nth = PLANS[self.plans[self.at]], self.sendings[self.at]
        if nth <= len(plan) and plan[nth - 1]:
            self.answer(*plan[nth - 1])

    def write(self):
        """A piece of what is due, cut anywhere."""
        for due in sorted(entry for entry in self.later if entry[0] <= time.monotonic()):
            self.later.remove(due)
            self.queue += frame(self.framing, due[1])
            if due[1][0] & 0x3F == self.last_word():
                self.ended_at = len(self.said) + len(self.queue)
        piece = self.queue[:self.chance.choice((1, 1, 2, 3, 5, 8, 40))]
        self.line.send(piece)
        self.queue, self.said = self.queue[len(piece):], self.said + piece

    def last_word(self):
        plan = self.plans[self.at]
        return PLANS[plan][-1][1] if plan not in GIVEN_UP else None

    def listen(self):
        self.line.hear()
        heard, self.rest = taken_frames(self.framing, self.rest + bytes(self.line.heard))
        self.line.heard.clear()
        for message in heard:
            self.hear(message)

    def turn(self):
        self.listen()
        if self.talks and self.chance.randrange(6) == 0:
            self.talk()
        self.write()
        time.sleep(0.001)

    def serve(self, is_over):
        """Until it is over, all is said, and all was read: a last message is answered."""
        end = time.monotonic() + PATIENCE
        while not is_over() and time.monotonic() < end:
            self.turn()
        talked, self.talks = self.talks, False
        self.say(b"\x87" + bytes(8))
        while (self.queue or self.later) and time.monotonic() < end:
            self.turn()
        until(self.line.is_read)
        self.turn()
        self.talks = talked
        return time.monotonic() < end

    def as_often_as_planned(self):
        least = [4 if plan in GIVEN_UP else len(PLANS[plan]) for plan in self.plans]
        return not self.wrong and all(n <= sent <= 4 for n, sent in zip(least, self.sendings))


def ways(said):
    return re.findall(r"^host: (command .*)$", said, re.MULTILINE)


def way(line_number, message, plan):
    word = "given up" if plan in GIVEN_UP else ENDS[PLANS[plan][-1][1]]
    return f"command {line_number} ({message[0] & 0x3F:02X}) {word}"


# ---- what a host that keeps a log says, from document 01 and document 02, No. 6 and 7

LOG_MOST = 65536
FLAGS = ("faulted", "bypass", "trouble", "alarm memory")
NOT_KEPT = [bytes.fromhex(text) for text in ("03 09" + 16 * "41", "09 09 01 08", "0A 09 FF 00 09 00 0B 10 0C 00", "0B 09 01", "1D",
                                             "12 09 12 34 56 00 01", "81 09" + 9 * "00")]


def is_about(message, zone):
    """Zones count from 0 here, as on the line."""
    number = message[0] & 0x3F
    return (number == 4 and message[1] == zone) or (number == 5 and message[1] <= zone <= message[1] + 15)


def short_flags(message, zone):
    if message[0] & 0x3F == 5:
        place = zone - message[1]
        return message[2 + place // 2] >> 4 * (place % 2) & 15
    first, second = message[6:8]
    return bool(first & 0x01) | bool(first & 0x18) << 1 | bool(first & 0x66) << 2 | (second & 1) << 3


def answer(kept, zone):
    """What the host says of a zone, which it counts from 1."""
    newest = next((message for message in reversed(kept) if is_about(message, zone)), None)
    if newest is None:
        return f"zone {zone + 1} was not heard"
    names = [name for k, name in enumerate(FLAGS) if short_flags(newest, zone) >> k & 1]
    return f"zone {zone + 1} was last heard in {newest.hex(' ').upper()}: {' '.join(names) or 'in order'}"


def records(kept):
    return b"".join(message + bytes([len(message)]) for message in kept)


def messages_of(log):
    """By the trailers, from the end of a log to its beginning."""
    messages = []
    while log:
        at = len(log) - 1 - log[-1]
        messages.append(log[at:-1])
        log = log[:at]
    return messages[::-1]


def put(message):
    """What a message puts into a table: values, by the place of a byte and the bits of it, all eight or one of a mark."""
    number, second = message[0] & 0x3F, message[1]
    if number == 4:
        place = 8 * second
        stored, marks = dict(enumerate([*message[2:], short_flags(message, second)], place + 1)), [(place, 1), (place, 2)]
    elif number == 5:
        zones = range(second, second + 16)
        stored, marks = {8 * zone + 7: short_flags(message, zone) for zone in zones}, [(8 * zone, 1) for zone in zones]
    elif number == 6:
        place = 2048 + 9 * second
        stored, marks = dict(enumerate(message[2:], place + 1)), [(place, 2)]
    elif number == 7:
        partitions = range(2048, 2120, 9)
        stored, marks = {place + 8: byte for place, byte in zip(partitions, message[1:])}, [(place, 1) for place in partitions]
    else:
        stored, marks = dict(enumerate(message[1:], 2121)), [(2120, 1)]
    return {**{(place, 255): byte for place, byte in stored.items()}, **{(place, bit): bit for place, bit in marks}}


def table_of(messages):
    table = bytearray(2132)
    for message in messages:
        for (place, bits), value in put(message).items():
            table[place] = table[place] & ~bits | value
    return bytes(table)


def shortened(kept):
    """Without those of which every byte and every mark bit is put there by later ones together."""
    stay, later = [], set()
    for message in reversed(kept):
        own = put(message).keys()
        if not own <= later:
            stay.append(message)
        later |= own
    return stay[::-1]


def log_of(heard):
    """The messages of a log that took all these, and what was won each time that one had no room."""
    kept, used, won = [], 0, []
    for message in heard:
        if used + len(message) + 1 > LOG_MOST:
            kept = shortened(kept)
            won.append(used - len(records(kept)))
            used -= won[-1]
        kept.append(message)
        used += len(message) + 1
    return kept, won


# A card of No. 7: what goes when room is made for the first time (1), what goes at the second (2), and what stays (0).
FIRST_ROOM = [
    (1, "04 09 01 10 00 00 01 00"),        # there is a later 04h of its zone
    (1, "05 20 21 43 65 87 A9 CB ED 0F"),  # zone 20h has a later 04h, and the other fifteen a later 05h
    (2, "05 40 01 00 00 00 00 00 00 00"),  # nothing is later of zone 40h; the second time another 05h has that
    (0, "84 30 FF 01 02 03 18 00"),        # a 05h covers its zone, which is not enough
    (1, "06 03 01 02 03 04 05 06 07"),     # there is a later 06h of its partition
    (1, "07 11 22 33 44 55 66 77 88"),     # there is a later 07h
    (2, "86 02 11 12 13 14 15 16 17"),     # a 07h is later, which is not enough; the second time a 06h
    (2, "84 09 01 10 00 00 08 01"),        # the 04h of its zone for which room is made is kept when it was made
    (0, "04 20 01 10 00 00 02 00"),        # nothing is later of its zone
    (0, "85 21 00 00 00 00 00 00 00 80"),  # nor of its sixteen
    (0, "05 41 10 00 00 00 00 00 00 11"),  # a 05h has all but two of its zones, the second time
    (2, "06 03 21 22 23 24 25 26 27"),     # there is a later 06h of its partition, the second time
    (0, "87 01 02 03 04 05 06 07 08"),     # a 06h of each partition is later the second time, which is not enough
]
SECOND_ROOM = [(0, f"06 0{partition} 00 00 00 00 {partition}1 00 00") for partition in range(8)] + [
    (0, "85 3F 00 00 00 00 00 00 00 00"),  # nothing is later of its zones
]


def filling(room, goes, stays):
    """Of a card: as many 04h of the last zone and 08h as fill the room, one 04h at least. The last of each stays longer."""
    zones = next(count for count in range(1, 14) if (room - 9 * count) % 13 == 0)
    zone, system = "04 FF 00 00 00 00 04 00", "08 01" + 10 * "00"
    return [(goes, zone)] * (zones - 1) + [(stays, zone)] + [(goes, system)] * ((room - 9 * zones) // 13 - 1) + [(stays, system)]


def of_card(rows, rooms_made=0):
    """The messages of a card that are there when room was made so often."""
    return [bytes.fromhex(text) for goes, text in rows if goes == 0 or goes > rooms_made]


def bytes_in(path):
    """None where there is no file."""
    if not os.path.exists(path):
        return None
    with open(path, "rb") as file:
        return file.read()


def told(said):
    """Answers and refusals of whole lines, in their order."""
    return re.findall(r"^host: ((?:command|zone) .*)\n", said, re.MULTILINE)


def told_won(said):
    """What was won each time that room was made."""
    return [int(count) for count in re.findall(r"^host: made room in the log: (\d+) bytes\n", said, re.MULTILINE)]


def spoiled(chance, part):
    """A frame that is broken off, or has a wrong bit: no good message comes of it."""
    at = chance.randrange(len(part))
    return chance.choice((part[:at], part[:at] + bytes([part[at] ^ 1 << chance.randrange(8)]) + part[at + 1:]))


class Station:
    """A host that is asked on a descriptor, and the messages that it should have kept, whether or not they are still there."""

    def __init__(self, trials, home, framing):
        self.framing, self.log_in, self.kept = framing, os.path.join(home, "log"), []
        self.line = Line(os.path.join(home, "line"))
        given, self.far = os.pipe()
        words = ["--commands", f"/dev/fd/{given}", "--log", self.log_in, "--tick", "60000"]
        self.host = trials.started(home, self.line, FRAMINGS[framing] + words, (given,))
        os.close(given)

    def waits(self, what):
        return until(lambda: what() or self.host.process.poll() is not None) and what()

    def hear(self, pieces):
        """Bytes, and then a request: when it was rejected, all before it was heard."""
        rejected, request = frame(self.framing, b"\x1f"), frame(self.framing, b"\x21")
        self.line.heard.clear()
        for piece in [*pieces, request]:
            self.line.send(piece)
        return self.waits(lambda: self.line.hear() or rejected in self.line.heard)

    def keep(self, *messages):
        """So many at a time as a line takes though nobody reads it: of a host that hangs or is gone this comes back."""
        return all(self.keep_some(messages[at:at + 200]) for at in range(0, len(messages), 200))

    def keep_some(self, messages):
        self.kept += messages
        return self.hear(frame(self.framing, message) for message in messages)

    def ask(self, *lines_asked):
        """What it says to these lines."""
        before = len(told(self.host.said()))
        os.write(self.far, "".join(f"{line}\n" for line in lines_asked).encode())
        self.waits(lambda: len(told(self.host.said())) >= before + len(lines_asked))
        return told(self.host.said())[before:]

    def says(self, *zones):
        """Whether it says of zones, counted from 0, what it should."""
        return self.ask(*(f"zone {zone + 1}" for zone in zones)) == [answer(self.kept, zone) for zone in zones]

    def room(self):
        """How many bytes its log should have left."""
        return LOG_MOST - len(records(log_of(self.kept)[0]))

    def won(self):
        return told_won(self.host.said())

    def has_written(self):
        """Whether the log's file is its records, and it has made room when there was none, and not else."""
        kept, won = log_of(self.kept)
        return bytes_in(self.log_in) == records(kept) and self.won() == won

    def close(self):
        os.close(self.far)
        self.host.leave()
        self.line.close()


class Commands(Trials):
    def file_of(self, home, text):
        path = os.path.join(home, "commands")
        with open(path, "w", encoding="ascii") as file:
            file.write(text)
        return ["--commands", path, "--tick", str(round(1000 * TICK))]

    def planned(self):
        """Every plan, and more that are quick: commands of all 14 numbers, no two neighbours alike."""
        plans = list(PLANS) + self.chance.choices(("at once", "failed", "rejected", "1Eh first", "1Eh always"), k=8)
        self.chance.shuffle(plans)
        numbers = [0x29, 0x2B, 0x2C, 0x31, 0x36, 0x37, 0x3A, 0x3B, 0x3C, 0x3D, 0x3E, 0x3F] * 2
        commands = []
        for plan, number in zip(plans, numbers):
            number = self.chance.choice((0x34, 0x35)) if plan == "answered" else number
            commands.append(command(self.chance, number))
        return commands, plans

    def written(self, commands):
        """The commands as lines, with blank ones between; and the number of each one's line."""
        text, numbers = "", []
        for message in commands:
            text += "\n" * self.chance.choice((0, 0, 0, 2))
            numbers.append(text.count("\n") + 1)
            text += self.chance.choice((message.hex(), message.hex(" ").upper(), message.hex() + " ")) + "\n"
        return text, numbers

    # ---- the trials

    def as_chosen(self, home, framing):
        (commands, plans), words = self.planned(), FRAMINGS[framing]
        text, numbers = self.written(commands)
        expected = [way(*planned) for planned in zip(numbers, commands, plans)]
        line = Line(os.path.join(home, "line"))
        gateway = Gateway(self.chance, line, framing, commands, plans)
        host = self.started(home, line, words + self.file_of(home, text))
        served = gateway.serve(lambda: len(ways(host.said())) >= len(expected))
        ended, said, table = host.end(), host.said(), host.table()
        gateway.listen()
        self.note(f"{framing}: {len(commands)} commands, each ended as the gateway chose, in their order", self.hearing, served,
                  ended == 0, ways(said) == expected)
        self.note(f"{framing}: {sum(gateway.sendings)} sendings, at most four of each, flag set, never two commands outstanding",
                  gateway.as_often_as_planned())
        host.leave()
        line.close()
        status, uncut, replies, _ = self.uncut(home, gateway.said, words)
        self.note(f"{framing}: the table and the replies are those of the {len(gateway.said)} bytes, uncut and with no command",
                  status == 0, table == uncut, any(table), b"".join(frame(framing, r) for r in gateway.replies) == replies)

    def on_a_busy_line(self, home):
        """Start after start, faster than the host can answer them: there is always a byte to read."""
        line = Line(os.path.join(home, "line"))
        host = self.started(home, line, self.file_of(home, "3F09"))
        end, count = time.monotonic() + PATIENCE / 4, 0
        while not ways(host.said()) and time.monotonic() < end:
            line.send(b"\x7e" * 2048)
            count += 2048
        self.note(f"a line that is never quiet, {count} bytes: the ticks go on", self.hearing, host.end() == 0,
                  ways(host.said()) == ["command 1 (3F) given up"], line.heard.count(frame("binary", b"\xbf\x09")) == 4)
        host.leave()
        line.close()

    def refused(self, home):
        no_bytes = "it is not written as bytes in hexadecimal"
        table = [("zz", no_bytes), ("3F0", no_bytes), ("3F 09", None), ("1D", "13, it is none of the 14 commands"),
                 ("24 09", "13, it is none of the 14 commands"), ("3F", "7, the length is not that of its number"),
                 ("02 00", "6, the number is none of the 41"), ("7F 09", "6, the number is none of the 41"),
                 ("3D 08 01 02", "8, a value is out of its range"), ("00" * 19, "6, the number is none of the 41"),
                 ("00 " * 255, "6, the number is none of the 41"), ("3F " * 255, "7, the length is not that of its number"),
                 ("3F " * 256, "4, longer than a message can be"), ("3F" + "09" * 257, "4, longer than a message can be"),
                 ("3F " * 400, no_bytes), ("bf0a", None)]
        text = "\n".join(row[0] for row in table)
        refusals = [f"command {k} refused: {why}" for k, (_, why) in enumerate(table, 1) if why]
        sent = [f"command {k} (3F) acknowledged" for k, (_, why) in enumerate(table, 1) if not why]
        line = Line(os.path.join(home, "line"))
        gateway = Gateway(self.chance, line, "binary", [b"\x3f\x09", b"\x3f\x0a"], ["at once"] * 2)
        host = self.started(home, line, self.file_of(home, text))
        served = gateway.serve(lambda: len(ways(host.said())) >= len(table))
        said = ways(host.said())
        self.note(f"{len(refusals)} refused lines, each told with its number and why; the two others are sent", self.hearing, served,
                  [way for way in said if "refused" in way] == refusals, gateway.as_often_as_planned(),
                  [way for way in said if "refused" not in way] == sent, len(sent) == 2)
        self.note("and the program ends well", host.end() == 0)
        host.leave()
        line.close()

    def on_a_descriptor(self, home):
        """Commands that come while the host runs, cut anywhere."""
        commands = [command(self.chance, number) for number in (0x3F, 0x3E, 0x34, 0x3F)]
        plans = ["at once", "1Eh first", "answered", "failed"]
        expected = [way(*planned) for planned in zip((1, 2, 3, 4), commands, plans)]
        line = Line(os.path.join(home, "line"))
        gateway = Gateway(self.chance, line, "binary", commands, plans)
        given, far = os.pipe()
        host = self.started(home, line, ["--commands", f"/dev/fd/{given}", "--tick", str(round(1000 * TICK))], (given,))
        os.close(given)
        ends = []
        for k, message in enumerate(commands):
            for piece in self.pieces(message.hex(" ").encode() + b"\n"):
                os.write(far, piece)
                gateway.turn()
            ends.append(gateway.serve(lambda k=k: len(ways(host.said())) > k))
        os.close(far)
        self.note("commands on a descriptor, each when the one before it has ended", self.hearing, all(ends),
                  ways(host.said()) == expected, gateway.as_often_as_planned(), host.end() == 0)
        host.leave()
        line.close()

    def with_the_line_away(self, home):
        fifo = os.path.join(home, "fifo")
        os.mkfifo(fifo)
        line = Line(os.path.join(home, "line"))
        host = self.started(home, line, ["--wait", "20", "--tick", str(round(500 * TICK)), "--commands", fifo])
        with open(fifo, "wb", buffering=0) as commands:
            line.close()
            away = host.said_often("went away", 1)
            commands.write(b"3F 01\n")
            given_up = host.said_often("command 1 (3F) given up", 1)
            line = Line(line.path)
            back = host.said_often("hearing", 2)
            gateway = Gateway(self.chance, line, "binary", [b"\x3f\x02"], ["at once"])
            commands.write(b"3F 02\n")
            served = gateway.serve(lambda: len(ways(host.said())) == 2)
        self.note("a line that is away: its command is given up, and the next is sent when it is back", self.hearing, away, given_up,
                  back, served, ways(host.said())[1:] == ["command 2 (3F) acknowledged"], host.end() == 0)
        host.leave()
        line.close()

    def is_answered(self, line, data, before, reply, waits):
        """Sends a frame, cut anywhere: nothing comes before its last byte, where that is waited for, and then just the reply."""
        for piece in self.pieces(data[:-1]):
            line.send(piece)
            time.sleep(0.001)
        silent = not waits or (until(line.is_read) and line.heard == before)
        line.send(data[-1:])
        return silent and line.hears(before + reply) and line.heard == before + reply

    def until_rejected(self, home, framing):
        """Long messages of newer firmware: it sends one again after a 1Eh, as to a wrong sum, and is done with it at a 1Fh."""
        words, lengths = FRAMINGS[framing], [19, 20, 124, 125, 126, 127, 253, 254, 255] + self.chance.sample(range(21, 253), 6)
        negative, rejected = frame(framing, b"\x1e"), frame(framing, b"\x1f")
        line, said, replies, answered = Line(os.path.join(home, "line")), b"", b"", []
        host = self.started(home, line, words)
        for k, length in enumerate(lengths):
            message = long_message(self.chance, length)
            wrong = summed(message)[:-1] + bytes([summed(message)[-1] ^ 1])
            for data, reply in [(framed(framing, wrong), negative)] * (k % 2) + [(frame(framing, message), rejected)]:
                answered.append(self.is_answered(line, data, replies, reply, k % 4 == 0))
                said, replies = said + data, replies + reply
        last = frame(framing, b"\x87" + bytes(8))
        line.send(last)
        said, replies = said + last, replies + frame(framing, b"\x1d")
        read, ended, heard, table = line.hears(replies) and until(line.is_read), host.end(), bytes(line.heard), host.table()
        self.note(f"{framing}: {len(lengths)} long unknown messages, each rejected once, at its last byte", self.hearing, *answered,
                  read, ended == 0, heard == replies)
        host.leave()
        line.close()
        status, uncut, replies, _ = self.uncut(home, said, words)
        self.note(f"{framing}: the table and the replies are those of the {len(said)} bytes, uncut", status == 0, table == uncut,
                  heard == replies)

    def noisy_escape(self, home):
        """Noise makes a 5Fh of the 5Eh in a zone status: it is refused at that byte, and taken when it is sent again."""
        data = frame("binary", bytes((0x84, 9, 0x7E, 0x10, 0x58, 0, 1, 0)))
        at = data.index(b"\x7d\x5e") + 1
        negative, acknowledge = frame("binary", b"\x1e"), frame("binary", b"\x1d")
        line = Line(os.path.join(home, "line"))
        host = self.started(home, line, [])
        refused = self.is_answered(line, data[:at] + b"\x5f", b"", negative, False)
        line.send(data[at + 1:])
        taken = self.is_answered(line, data, negative, acknowledge, False)
        ended = host.end()
        self.note("a 5Fh that noise made of a 5Eh: 1Eh at that byte, no more for that frame, and 1Dh when it is sent again", self.hearing,
                  refused, taken, ended == 0, host.table()[72:80] == bytes((3, 0x7E, 0x10, 0x58, 0, 1, 0, 1)))
        host.leave()
        line.close()

    def half_seconds(self, home):
        path = os.path.join(home, "commands")
        line = Line(os.path.join(home, "line"))
        gateway = Gateway(self.chance, line, "binary", [b"\x3f\x09"], ["silent"], talks=False)
        self.file_of(home, "3F09\n")
        host = self.started(home, line, ["--commands", path])
        served = gateway.serve(lambda: len(gateway.times) >= 2)
        between = gateway.times[1][1] - gateway.times[0][1] if served else 0
        self.note(f"a tick is half a second: sent again after {between:.1f} s", self.hearing, served, between > 2.8)
        self.note("a command that still waits at the end is told", host.end() == 0, "commands that still wait: 1" in host.said())
        host.leave()
        line.close()

    # ---- the log

    def asked(self, home):
        """Zone 10, which is 9 on the line, and its neighbours."""
        status, snapshot = bytes.fromhex("84 09 01 10 00 00 01 00"), bytes.fromhex("05 09 10 00 00 00 00 00 00 82")
        station = Station(self, home, "binary")
        self.note("a zone before anything was heard: not heard", self.hearing, station.ask("zone 10") == ["zone 10 was not heard"])
        self.note("after a 04h of it: those bytes, faulted; its neighbours are not heard", station.keep(status),
                  station.ask("zone 10") == ["zone 10 was last heard in 84 09 01 10 00 00 01 00: faulted"], station.says(8, 9, 10))
        kept = station.keep(snapshot)
        self.note("after a 05h that covers it: the newer of the two", kept,
                  station.ask("zone 10") == ["zone 10 was last heard in 05 09 10 00 00 00 00 00 00 82: in order"])
        self.note("the same 05h at both edges of its sixteen zones, and not beyond them", station.says(8, 9, 10, 23, 24),
                  station.ask("zone 25") == ["zone 25 was last heard in 05 09 10 00 00 00 00 00 00 82: alarm memory"],
                  station.ask("zone 26") == ["zone 26 was not heard"])
        others = [bytes.fromhex(text) for text in ("86 07 01 02 03 04 05 06 07", "07 09 09 09 09 09 09 09 09", "88 09" + 10 * "00")]
        self.note("06h, 07h and 08h are about no zone, whatever their second byte", station.keep(*others), station.says(7, 9, 10))
        damaged = summed(bytes.fromhex("0428") + bytes(6))[:-1] + b"\xaa"
        heard = station.hear([frame("binary", message) for message in NOT_KEPT] + [framed("binary", damaged)])
        self.note("what is damaged, and good messages of other numbers, change nothing", heard, station.says(9, 10, 40))
        newer = [bytes.fromhex(text) for text in ("04 09 01 10 00 00 FE 01", "04 00 FF FF FF FF 18 00", "85 F0 00 00 00 00 00 00 00 40")]
        kept = station.keep(*newer)
        self.note("zones 1 and 256 too, and zone 10 by a newer 04h", kept, station.says(0, 1, 9, 10, 239, 240, 255))
        first = bytes.fromhex("84 09 01 10 00 00 01 00 08 05 09 10 00 00 00 00 00 00 82 0A")
        self.note("the log's file has the records, byte for byte", station.host.end() == 0, station.has_written(),
                  records(station.kept).startswith(first))
        station.close()

    def wrong_zones(self, home):
        wrong = ("zone 0", "zone 257", "zone", "zone ", "zone ten", "zone10", "zone 1 2", "zone 1,", "zone -1", "zone +1", "zone 0x1",
                 "zone 1A", "zones 1", "zone 4294967297", "zone 18446744073709551617")
        right = {"zone 1": 0, " zone \t 256 \r": 255, "zone 00010": 9, "zone 2": 1}
        asked = [*wrong, "ZONE 1", " " * 1024 + "zone 1", *right]
        self.chance.shuffle(asked)
        station = Station(self, home, "binary")
        kept, said = station.keep(bytes.fromhex("0400000000000100"), bytes.fromhex("84FF000000000801")), []
        for k, line in enumerate(asked, 1):
            why = "it names no zone from 1 to 256" if line in wrong else "it is not written as bytes in hexadecimal"
            said.append(answer(station.kept, right[line]) if line in right else f"command {k} refused: {why}")
        self.note(f"{len(wrong)} questions that name no zone, each refused with its line's number; {len(right)} others are answered",
                  self.hearing, kept, station.ask(*asked) == said, station.host.end() == 0)
        station.close()

    def made_log(self, home, framing):
        """Messages of all kinds, some damaged or broken off, and questions in between."""
        station, answers = Station(self, home, framing), []
        for _ in range(12):
            data = b""
            for _ in range(self.chance.randrange(1, 24)):
                message = self.chance.choice(NOT_KEPT) if self.chance.randrange(6) == 0 else lines.message(self.chance)
                is_intact = self.chance.randrange(4) > 0
                data += frame(framing, message) if is_intact else spoiled(self.chance, frame(framing, message))
                if is_intact and message not in NOT_KEPT:
                    station.kept.append(message)
            answers.append(station.hear(self.pieces(data)) and station.says(*self.chance.choices(range(256), k=3)))
        self.note(f"{framing}: {len(station.kept)} messages are kept of those that were said, cut anywhere; asked in between",
                  self.hearing, *answers, len(station.kept) > 30)
        self.note(f"{framing}: of all 256 zones the newest word, or that there is none", station.says(*range(256)),
                  0 < sum(any(is_about(m, zone) for m in station.kept) for zone in range(256)) < 256)
        self.note(f"{framing}: the log's file is their {len(records(station.kept))} bytes", station.host.end() == 0, station.has_written())
        station.close()

    def asked_while_eight_wait(self, home):
        """A question needs no slot; behind a line that needs one it keeps its turn."""
        station = Station(self, home, "binary")
        os.write(station.far, b"3F 09\n" * 8)
        sent = station.line.hears(frame("binary", b"\xbf\x09"))  # the others are read by then
        said = station.ask("zone 10")
        os.write(station.far, b"3F 0A\nzone 11\n")
        time.sleep(0.3)
        behind = told(station.host.said())
        station.line.send(frame("binary", b"\x1d"))
        ended = station.host.said_often("zone 11 was not heard", 1)
        self.note("eight commands wait: a question is answered; behind a ninth it waits with it", self.hearing, sent,
                  said == ["zone 10 was not heard"], behind == said, ended,
                  told(station.host.said()) == said + ["command 1 (3F) acknowledged", "zone 11 was not heard"],
                  station.host.end() == 0)
        station.close()

    def room_by_card(self, home):
        """A log that is full to the last byte, and later one with room for every record but the longest."""
        station, zones = Station(self, home, "binary"), range(256)
        card = FIRST_ROOM + filling(LOG_MOST - 11 - len(records(of_card(FIRST_ROOM))), 1, 2) + [(0, "05 F0 00 00 00 00 00 00 00 20")]
        heard = station.keep(*of_card(card)) and station.hear(frame("binary", message) for message in NOT_KEPT)
        self.note(f"a log of {len(records(station.kept))} bytes is full; what no log keeps needs no room", self.hearing, heard,
                  station.room() == 0, station.won() == [], station.says(*zones))
        stay, following = len(records(of_card(card, 1))), [(0, "04 09 01 10 00 00 66 00")] + SECOND_ROOM
        heard = station.keep(*of_card(following[:1]))
        self.note(f"one more: room is made, and {stay} bytes stay; all zones are answered by all that was said", heard,
                  station.won() == [LOG_MOST - stay], station.says(*zones))
        following += filling(LOG_MOST - 12 - stay - len(records(of_card(following))), 2, 0)
        heard = station.keep(*of_card(following[1:]))
        self.note("no room is made for what fits", heard, len(station.won()) == 1, station.room() == 12)
        stay, last = of_card(card + following, 2), b"\x88" + bytes(11)
        heard = station.keep(last)
        self.note("and again room, for 13 bytes where 12 are left", heard, station.won()[1:] == [LOG_MOST - 12 - len(records(stay))],
                  station.says(*zones))
        self.note(f"its file is the {len(stay)} records that the card leaves and the last one, as document 02 has it",
                  station.host.end() == 0, bytes_in(station.log_in) == records(stay + [last]), station.has_written())
        station.close()

    def up_to_full(self, room):
        """Messages of all kinds, about some of the zones, that leave less than the 13 bytes of an 08h."""
        messages = []
        while room >= 13:
            message = lines.message(self.chance)
            if message[0] & 0x3F > 5 or message[1] < 230:
                messages.append(message)
                room -= len(message) + 1
        return messages

    def is_made_alike(self, station):
        """Fills a log, and makes room by a message that is about no zone: whether all zones are answered before it and behind it alike."""
        zones, often = [f"zone {zone}" for zone in range(1, 257)], len(station.won())
        if not station.keep(*self.up_to_full(station.room())) or len(station.won()) != often:
            return False
        before = station.ask(*zones)
        behind = station.keep(b"\x88" + bytes(11)) and station.ask(*zones)
        not_heard = [said for said in before if "not heard" in said]
        return (len(station.won()) == often + 1 and before == behind == [answer(station.kept, zone) for zone in range(256)]
                and 0 < len(not_heard) < 256)

    def made_room(self, home, framing, times):
        station = Station(self, home, framing)
        alike = all(self.is_made_alike(station) for _ in range(times))
        kept = alike and station.keep(*(lines.message(self.chance) for _ in range(40)))
        ended, count, table, log = station.host.end(), len(station.kept), bytes_in(station.host.table_in), bytes_in(station.log_in)
        self.note(f"{framing}: {count} messages, rooms made: {times}; of all zones the same answers before and behind it",
                  self.hearing, alike, kept)
        written = messages_of(log)
        self.note(f"{framing}: the log's file is what document 02 leaves of them, byte for byte: {len(written)} records", ended == 0,
                  station.has_written(), {message[0] & 0x3F for message in written[:-41]} == {4, 5, 6, 7, 8})
        station.close()
        status, rebuilt, _, _ = self.uncut(home, b"".join(frame(framing, message) for message in written), FRAMINGS[framing])
        self.note(f"{framing}: the table is that of the log's file, and of all that was said", status == 0, table == rebuilt,
                  table == table_of(station.kept), len(written) < count)

    def no_file(self, home):
        host = Host(home, self.command, ["--commands", os.path.join(home, "none")])
        status = host.process.wait(PATIENCE)
        self.note("commands that are not there: told, status 1", status == 1, "cannot open" in host.said())

    def run(self, home):
        for framing in FRAMINGS:
            self.as_chosen(home, framing)
            self.until_rejected(home, framing)
        self.noisy_escape(home)
        self.on_a_busy_line(home)
        self.refused(home)
        self.on_a_descriptor(home)
        self.with_the_line_away(home)
        self.half_seconds(home)
        self.asked(home)
        self.wrong_zones(home)
        for framing in FRAMINGS:
            self.made_log(home, framing)
        self.asked_while_eight_wait(home)
        self.room_by_card(home)
        self.made_room(home, "binary", 3)
        self.made_room(home, "ascii", 1)
        self.no_file(home)


if __name__ == "__main__":
    sys.exit(lines.main(sys.argv[1:], Commands, __doc__))
