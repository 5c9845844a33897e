#!/usr/bin/env python3
"""The grid example's maps, and what GDAL, a real reader of them, sees: of the samples, of made captures and of none.

usage: tests/grids.py SEED -- GRID [WORD...]

What a map should be comes from the capture's own frames, by a reader of 04h and 05h that stands here, and from document 02's No. 8:
never from the map. Ends 'N passed, M failed'."""
import glob
import json
import os
import re
import statistics
import struct
import subprocess
import sys
from concurrent.futures import ThreadPoolExecutor
from fractions import Fraction

sys.dont_write_bytecode = True
import lines  # noqa: E402
from lines import FRAMINGS, PATIENCE, frame, stream, summed  # noqa: E402

WIDTHS = (16, 8, 4, 2, 1)
NODATA = -9999
MADE = 30  # captures of which only the files' bytes are looked at


# ---- what was heard, from document 01

def unescaped(part):
    part = iter(part)
    return bytes(next(part, 0x20) ^ 0x20 if byte == 0x7D else byte for byte in part)


def recovered(framing, capture):
    """The bytes behind each start, as far as they can be a frame's."""
    if framing == "binary":
        return [unescaped(part) for part in capture.split(b"\x7e")[1:]]
    digits = [re.match(rb"((?:[0-9A-F]{2})*)\r", part) for part in capture.split(b"\n")[1:]]
    return [bytes.fromhex(found[1].decode()) for found in digits if found]


def messages(framing, capture):
    for data in recovered(framing, capture):
        whole = data[:data[0] + 3] if data else b""
        message = whole[1:-2]
        if message and whole == summed(message) and (framing == "binary" or whole == data):
            yield message


def heard(framing, capture):
    """Of each zone 1 where it is faulted, 0 where it is not, None where it was not heard."""
    zones = [None] * 256
    for message in messages(framing, capture):
        number, length = message[0] & 0x7F, len(message)
        if number == 4 and length == 8:
            zones[message[1]] = message[6] & 1
        if number == 5 and length == 10 and message[1] <= 240:
            for k in range(16):
                zones[message[1] + k] = message[2 + k // 2] >> k % 2 * 4 & 1
    return zones


# ---- what a level should be, from document 02

def rounded(share):
    """The float of 24 binary digits that is nearest to a share."""
    if share == 0:
        return 0.0
    scale = 1
    while share * scale < 1 << 23:
        scale *= 2
    return round(share * scale) / scale


def header(width):
    return (f"ncols {width}\nnrows {width}\nxllcorner 0\nyllcorner 0\ncellsize {16 // width}\n"
            "NODATA_value -9999\nbyteorder LSBFIRST\n").encode()


def shares(zones, width):
    """Of each cell its share, None where nothing was heard: the top row first, each from left to right."""
    size = 16 // width
    for row in range(width):
        for column in range(width):
            block = [zones[16 * (size * row + r) + size * column + c] for r in range(size) for c in range(size)]
            known = [zone for zone in block if zone is not None]
            yield rounded(Fraction(sum(known), len(known))) if known else None


def stored(share):
    return struct.pack("<f", NODATA if share is None else share)


# ---- what GDAL sees

def said(*words):
    return subprocess.run(words, stdout=subprocess.PIPE, stderr=subprocess.DEVNULL, timeout=PATIENCE, check=True).stdout


def description(path):
    return json.loads(said("gdalinfo", "-json", "-stats", path))


def located(path):
    """The middle of each cell and its value, in the file's order."""
    rows = [line.split() for line in said("gdal_translate", "-q", "-of", "XYZ", path, "/vsistdout/").decode().splitlines()]
    return [(float(x), float(y), struct.pack("<f", float(value))) for x, y, value in rows]


def is_described(it, width):
    """A map of 16 by 16 units, whatever the level, the lower left corner at 0, 0."""
    size, band = 16 / width, it["bands"][0]
    return (it["driverShortName"] == "EHdr" and it["size"] == [width, width] and len(it["bands"]) == 1 and
            it["geoTransform"] == [0, size, 0, 16, 0, -size] and band["type"] == "Float32" and band["noDataValue"] == NODATA)


def is_located(cells, zones, width):
    size = 16 / width
    middles = [(size * (column + 0.5), 16 - size * (row + 0.5)) for row in range(width) for column in range(width)]
    return cells == [(x, y, stored(share)) for (x, y), share in zip(middles, shares(zones, width))]


def is_counted(it, zones, width):
    """Statistics over the heard cells alone, to the places that gdalinfo prints; none where nothing was heard."""
    band = it["bands"][0]
    known = [share for share in shares(zones, width) if share is not None]
    percent = float(band["metadata"][""]["STATISTICS_VALID_PERCENT"])
    if not known:
        return percent == 0 and not {"minimum", "maximum", "mean", "stdDev"} & band.keys()
    wanted = {"minimum": min(known), "maximum": max(known), "mean": statistics.fmean(known), "stdDev": statistics.pstdev(known)}
    return abs(percent - 100 * len(known) / width ** 2) < 0.01 and all(abs(band[name] - value) < 0.000501 for name, value in wanted.items())


# ---- the trials

def status(zone, faulted):
    """A 04h."""
    return bytes((4, zone, 1, 0, 0, 0, faulted, 0))


def edges(framing):
    """Captures in which a share is 0, 1, or as near to them as it can be, and one that is longer than nxread reads."""
    none, every = ([frame(framing, bytes((5, offset)) + bytes([flags]) * 8) for offset in range(0, 256, 16)] for flags in (0x00, 0x11))
    yield b"".join(none)
    yield b"".join(every)
    yield b"".join(none) + frame(framing, status(255, 1))
    yield b"".join(every) + frame(framing, status(0, 0))
    yield frame(framing, status(15, 1))
    yield frame(framing, status(240, 1)) + bytes(70000) + frame(framing, status(241, 0))
    if framing == "binary":
        yield frame(framing, status(9, 1)).replace(b"\x09", b"\x7d\x29")  # an escape that is not needed: a capture is read by the old rule


class Maps(lines.Trials):
    def maps(self, home, capture, framing):
        """Writes the ten files; whether that went well, and their names but for -16.hdr and so on."""
        name = os.path.join(home, "map")
        for old in glob.glob(name + "-*"):
            os.remove(old)
        run = subprocess.run([*self.command, *FRAMINGS[framing], name], input=capture, stderr=subprocess.PIPE, timeout=PATIENCE, check=False)
        files = {f"map-{width}.{end}" for width in WIDTHS for end in ("hdr", "flt")}
        return run.returncode == 0 and files == {file for file in os.listdir(home) if file.startswith("map-")}, name

    def bytes_are_right(self, home, capture, framing):
        went_well, name = self.maps(home, capture, framing)
        zones = heard(framing, capture)
        return went_well and all(
            bytes_in(f"{name}-{width}.hdr") == header(width) and
            bytes_in(f"{name}-{width}.flt") == b"".join(map(stored, shares(zones, width))) for width in WIDTHS)

    def as_read(self, home, what, capture, framing="binary"):
        went_well, name = self.maps(home, capture, framing)
        zones, paths = heard(framing, capture), [f"{name}-{width}.flt" for width in WIDTHS]
        what += f", zones heard: {256 - zones.count(None)}"
        try:
            with ThreadPoolExecutor(os.cpu_count()) as pool:
                cells, described = list(pool.map(located, paths)), list(pool.map(description, paths))
        except subprocess.CalledProcessError as failure:
            self.note(f"{what}: {failure}", False)
            return
        self.note(f"{what}: GDAL's size, place, type and NODATA, at five levels", went_well, *map(is_described, described, WIDTHS))
        self.note(f"{what}: GDAL's every cell", *(is_located(it, zones, width) for it, width in zip(cells, WIDTHS)))
        self.note(f"{what}: GDAL's statistics, without NODATA", *(is_counted(it, zones, width) for it, width in zip(described, WIDTHS)))

    def made(self, framing):
        yield from edges(framing)
        for k in range(MADE):
            yield stream(self.chance, framing, (1, 4, 12, 40)[k % 4])

    def run(self, home):
        for sample in sorted(glob.glob(os.path.join(os.path.dirname(os.path.abspath(__file__)), "../samples/*.bin"))):
            self.as_read(home, os.path.basename(sample), bytes_in(sample))
        self.as_read(home, "no capture", b"")
        for framing in FRAMINGS:
            self.as_read(home, f"a made {framing} capture", stream(self.chance, framing, 40), framing)
            held = [self.bytes_are_right(home, capture, framing) for capture in self.made(framing)]
            self.note(f"{framing}: the files of {len(held)} made captures, byte for byte", *held)


def bytes_in(path):
    with open(path, "rb") as file:
        return file.read()


if __name__ == "__main__":
    sys.exit(lines.main(sys.argv[1:], Maps, __doc__))
