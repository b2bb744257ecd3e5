#!/usr/bin/env python3
"""jollanqe beside other readers, and what a person can get wrong. PNG files of every shape, of 8 and of 16 bits, are
read back by Python's zlib, and by pngcheck and netpbm where they are installed; pictures at tops by exact arithmetic;
empty, cut and random files, folders, closed streams, full disks, readers that go away, words that are empty or too
long. Run by tools/check, after jollanqe is built; JOLLANQE_PROGRAM names another program."""

import os
import random
import shutil
import struct
import subprocess
import sys
import tempfile
import unittest
import zlib
from pathlib import Path

sys.dont_write_bytecode = True
ROOT = Path(__file__).resolve().parent.parent
PROGRAM = os.path.abspath(os.environ.get("JOLLANQE_PROGRAM", ROOT / "target" / "bin" / "jollanqe"))
COMMAND, DATA, ADVANCE = 1, 2, 5
SWING = 28_000_000


def send(time, command, *data):
    return [(time, COMMAND, command)] + [(time, DATA, byte) for byte in data]


def capture(sources=8, gates=1, grey=0, swing=SWING):
    """The worked example of docs/FORMAT.md, on a panel of any size, grey and swing."""
    events = send(0, 0x00, 0x3F) + send(0, 0x04) + send(100, 0x22, 0x80, 1, 0, 0, 0, 1)
    events += send(100, 0x13, 0xF0) + send(100, 0x12) + [(3_100, ADVANCE, 0)]
    body = b"".join(struct.pack("<QBB", *event) for event in events)
    config = struct.pack("<BBHHBB38Q", 0, 4, sources, gates, grey, 0, swing, 100, 0, 0, 0, 0, *[1_000] * 32)
    return body + config + struct.pack("<II", len(body), len(events))


def rated(file, rate):
    """A capture with a rate behind its configuration."""
    return file[:-8] + struct.pack("<Q", rate) + file[-8:]


def png(data, depth=8):
    """Width, height and samples of a grey PNG file of so many bits a pixel; every sum in it is tested."""
    assert data[:8] == b"\x89PNG\r\n\x1a\n"
    at, head, stream, end = 8, None, b"", False
    while at < len(data):
        length, kind = struct.unpack(">I4s", data[at : at + 8])
        body = data[at + 8 : at + 8 + length]
        assert struct.unpack(">I", data[at + 8 + length : at + 12 + length])[0] == zlib.crc32(kind + body)
        at += 12 + length
        if kind == b"IHDR":
            head = struct.unpack(">IIBBBBB", body)
        elif kind == b"IDAT":
            stream += body
        elif kind == b"IEND":
            end = True
    width, height, *rest = head
    assert rest == [depth, 0, 0, 0, 0] and end and at == len(data)
    rows, length = zlib.decompress(stream), 1 + width * depth // 8
    assert len(rows) == height * length
    samples = b""
    for y in range(height):
        row = rows[y * length : (y + 1) * length]
        assert row[0] == 0
        samples += row[1:]
    return width, height, samples


def samples(greys, top):
    """Greys as a graymap or a PNG file has them: a byte each up to a top of 255, else two, the higher first."""
    return bytes(greys) if top <= 255 else struct.pack(f">{len(greys)}H", *greys)


def grey(state, top, swing=SWING):
    return (2 * state * top + swing) // (2 * swing)


class Folder(unittest.TestCase):
    def setUp(self):
        held = tempfile.TemporaryDirectory()
        self.addCleanup(held.cleanup)
        self.dir = Path(held.name)
        (self.dir / "good.capture").write_bytes(capture())

    def run_it(self, *words, data=b"", **how):
        how = {"stdout": subprocess.PIPE, "stderr": subprocess.PIPE, "cwd": self.dir, "timeout": 60, **how}
        return subprocess.run([PROGRAM, *words], input=data, **how)

    def says(self, result, out, err):
        """Both streams; the system's words are not held, only what stands before them."""
        self.assertEqual(result.returncode, 0)
        self.assertEqual(result.stdout, out)
        self.assertTrue(result.stderr.startswith(err) if err else not result.stderr, result.stderr)


class Pictures(Folder):
    def test_every_shape_by_other_readers(self):
        shapes = [(1, 1), (1, 600), (800, 1), (7, 3), (8, 8), (9, 2), (255, 4), (256, 3), (257, 5), (792, 528), (800, 600)]
        chance = random.Random(1)
        shapes += [(chance.randint(1, 800), chance.randint(1, 600)) for _ in range(6)]
        for width, height in shapes:
            with self.subTest(width=width, height=height):
                name = f"{width}x{height}"
                (self.dir / f"{name}.capture").write_bytes(capture(width, height, 90))
                made = self.run_it("png", f"{name}.capture")
                self.assertEqual(made.stderr, b"")
                graymap = self.run_it("pgm", f"{name}.capture").stdout
                head = b"P5\n%d %d\n255\n" % (width, height)
                self.assertTrue(graymap.startswith(head))
                self.assertEqual(png(made.stdout), (width, height, graymap[len(head) :]))
                (self.dir / f"{name}.png").write_bytes(made.stdout)
                if shutil.which("pngcheck"):
                    subprocess.run(["pngcheck", "-q", f"{name}.png"], cwd=self.dir, check=True, stdout=subprocess.DEVNULL)
                if shutil.which("pngtopnm"):
                    read = subprocess.run(["pngtopnm", f"{name}.png"], cwd=self.dir, check=True, stdout=subprocess.PIPE)
                    self.assertEqual(read.stdout, graymap)

    def test_pictures_writes_the_same_file(self):
        self.says(self.run_it("pictures", "good.capture", "made"), b"image 8 1 1 full 0 100 3100\n", b"")
        self.assertEqual((self.dir / "made" / "1.png").read_bytes(), self.run_it("png", "good.capture").stdout)
        self.assertEqual(png((self.dir / "made" / "1.png").read_bytes()), (8, 1, bytes([128] * 4 + [0] * 4)))


class Tops(Folder):
    """Pictures at a top of their own (2026-03)."""

    def read_by_others(self, name, graymap, made):
        """A PNG file by pngcheck and by netpbm, where they are installed; the graymap by netpbm."""
        (self.dir / f"{name}.png").write_bytes(made)
        (self.dir / f"{name}.pgm").write_bytes(graymap)
        for words, wanted in (["pngcheck", "-q", f"{name}.png"], None), (["pngtopnm", f"{name}.png"], graymap), (["pamtopnm", f"{name}.pgm"], graymap):
            if shutil.which(words[0]):
                read = subprocess.run(words, cwd=self.dir, check=True, stdout=subprocess.PIPE)
                self.assertIn(wanted, (None, read.stdout), words)

    def test_the_worked_example(self):
        for top, white in [(1, 1), (2, 2), (254, 254), (255, 255), (256, 256), (4_095, 4_095), (65_535, 65_535), (0, 255)]:
            with self.subTest(top=top):
                half = grey(SWING // 2, white)
                wanted = b"P5\n8 1\n%d\n" % white + samples([half] * 4 + [0] * 4, white)
                self.says(self.run_it("pgm", "good.capture", str(top)), wanted, b"")
                self.says(self.run_it("pgm", "-", str(top), data=capture()), wanted, b"")
                self.says(self.run_it(data=b"pgm good.capture %d > out.pgm\n" % top), b"", b"")
                self.assertEqual((self.dir / "out.pgm").read_bytes(), wanted)
        self.says(self.run_it("pgm", "good.capture", "255"), self.run_it("pgm", "good.capture").stdout, b"")
        self.says(self.run_it("pgm", "good.capture", "000255"), self.run_it("pgm", "good.capture").stdout, b"")
        for top in ("0", "255"):
            self.says(self.run_it("png", "good.capture", top), self.run_it("png", "good.capture").stdout, b"")
        made = self.run_it("png", "good.capture", "65535").stdout
        self.assertEqual(png(made, 16), (8, 1, b"\x80\0" * 4 + bytes(8)))

    def test_every_shape_by_other_readers(self):
        shapes = [(1, 1), (1, 600), (800, 1), (7, 3), (9, 2), (127, 2), (128, 2), (129, 2), (792, 528), (800, 600)]
        chance = random.Random(3)
        shapes += [(chance.randint(1, 800), chance.randint(1, 600)) for _ in range(4)]
        for width, height in shapes:
            with self.subTest(width=width, height=height):
                name, swing = f"{width}x{height}", SWING + chance.randrange(10**6)
                (self.dir / f"{name}.capture").write_bytes(capture(width, height, 90, swing))
                head = b"P5\n%d %d\n65535\n" % (width, height)
                graymap = self.run_it("pgm", f"{name}.capture", "65535").stdout
                self.assertTrue(graymap.startswith(head))
                greys = struct.unpack(f">{width * height}H", graymap[len(head) :])
                # the first four pixels go up from grey 90's state by half of the example's swing, the others stay
                state, driven = 90 * swing // 255, min(4, width)
                levels = [state + SWING // 2] * driven + [state] * (width * height - driven)
                self.assertEqual(greys, tuple(grey(level, 65_535, swing) for level in levels))
                made = self.run_it("png", f"{name}.capture", "65535")
                self.assertEqual(made.stderr, b"")
                self.assertEqual(png(made.stdout, 16), (width, height, graymap[len(head) :]))
                self.read_by_others(name, graymap, made.stdout)
                # the 8-bit picture is that at 255
                plain = self.run_it("pgm", f"{name}.capture").stdout
                self.says(self.run_it("pgm", f"{name}.capture", "255"), plain, b"")
                self.says(self.run_it("png", f"{name}.capture", "255"), self.run_it("png", f"{name}.capture").stdout, b"")

    def test_right_after_making(self):
        """The picture is the initial grey, that at a top the states': 200 is two thirds of a swing of 3."""
        file = capture(8, 2, 200, 3)
        none = file[-320:-8] + bytes(8)
        (self.dir / "made.capture").write_bytes(none)
        self.says(self.run_it("pgm", "made.capture"), b"P5\n8 2\n255\n" + bytes([200] * 16), b"")
        self.says(self.run_it("pgm", "made.capture", "255"), b"P5\n8 2\n255\n" + bytes([170] * 16), b"")
        self.says(self.run_it("pgm", "made.capture", "65535"), b"P5\n8 2\n65535\n" + samples([43_690] * 16, 65_535), b"")
        self.assertEqual(png(self.run_it("png", "made.capture").stdout), (8, 2, bytes([200] * 16)))
        self.assertEqual(png(self.run_it("png", "made.capture", "0").stdout), (8, 2, bytes([170] * 16)))

    def test_refused(self):
        (self.dir / "bad.capture").write_bytes(capture()[:-1])
        for words in (["pgm", "bad.capture", "65535"], ["png", "bad.capture", "255"], ["pgm", "bad.capture", "0"]):
            self.says(self.run_it(*words), b"refused 8\n", b"bad.capture: refused 8: broken capture: ")
        self.says(self.run_it(data=b"png bad.capture 65535 > out.png\n"), b"refused 8\n", b"bad.capture: ")
        self.assertFalse((self.dir / "out.png").exists())
        with open("/dev/full", "wb") as full:
            for words in (["pgm", "good.capture", "65535"], ["png", "good.capture", "65535"]):
                result = self.run_it(*words, stdout=full)
                self.assertTrue(result.stderr.startswith(b"standard output: "), result.stderr)

    def test_words(self):
        no_top = b"jollanqe: a top is a number from 1 to 65,535, or 0, which stands for 255\n"
        for top in ("65536", "65535.0", "-1", "+1", "white", "0x10", "1_000", "65,535", "99999999999999999999"):
            for word in ("pgm", "png"):
                with self.subTest(word=word, top=top):
                    self.says(self.run_it(word, "good.capture", top), b"", no_top)
                    self.says(self.run_it("vcd", "panel.config", "night.vcd", word, top), b"", no_top)
        no_png = b"jollanqe: a PNG file's top is 255 or 65,535, since its white is no other: pgm takes every top\n"
        for top in ("1", "254", "256", "65534"):
            self.says(self.run_it("png", "good.capture", top), b"", no_png)
            self.says(self.run_it("vcd", "panel.config", "night.vcd", "png", top), b"", no_png)
            self.says(self.run_it(data=b"png good.capture %s > out.png\n" % top.encode()), b"", no_png)
            self.assertFalse((self.dir / "out.png").exists())
        for word in ("pgm", "png"):
            wants = b"jollanqe: %s wants one file and at most a top, as in: jollanqe %s night.capture 65535\n" % ((word.encode(),) * 2)
            for words in ([word], [word, "good.capture", "255", "255"]):
                self.says(self.run_it(*words), b"", wants)
        for word in ("lines", "cuts", "config"):
            self.says(self.run_it(word, "good.capture", "255"), b"", b"jollanqe: %s wants one file" % word.encode())
        self.says(self.run_it(data=b"pgm good.capture 255 > good.capture\n"), b"", b"jollanqe: an input would be written over")
        self.assertEqual((self.dir / "good.capture").read_bytes(), capture())


class Rates(Folder):
    """Captures with a rate behind the configuration."""

    def put(self, name, data):
        (self.dir / name).write_bytes(data)
        return name

    def test_1_ghz_said_or_not(self):
        name = self.put("said.capture", rated(capture(), 10**9))
        self.says(self.run_it("lines", name), self.run_it("lines", "good.capture").stdout, b"")
        self.says(self.run_it("compare", name, "good.capture"), b"the captures agree\n", b"")

    def test_two_rates(self):
        name = self.put("slow.capture", rated(capture(), 32_768))
        said = self.run_it("compare", name, "good.capture").stdout
        self.assertTrue(said.startswith(b"configuration rate: 32768, 1000000000\n"), said)

    def test_out_of_range(self):
        for rate in (0, 10**9 + 1, 2**64 - 1):
            name = self.put("bad.capture", rated(capture(), rate))
            self.says(self.run_it("lines", name), b"refused 13\n", b"bad.capture: refused 13: rate out of range\n")

    def test_lengths(self):
        for more in (1, 4, 7, 9, 16):
            name = self.put("bad.capture", capture()[:-8] + bytes(more) + capture()[-8:])
            words = b"bad.capture: refused 8: broken capture: %d bytes, not 460 or 468\n" % (460 + more)
            self.says(self.run_it("lines", name), b"refused 8\n", words)

    def test_the_most_events(self):
        config = capture()[-320:-8]
        for rate, most in (b"", 6_521), (struct.pack("<Q", 1), 6_520):
            for events in (most, most + 1):
                body = struct.pack("<QBB", 0, ADVANCE, 0) * events
                name = self.put("full.capture", body + config + rate + struct.pack("<II", len(body), events))
                said = self.run_it("lines", name).stdout
                self.assertEqual(said.startswith(b"refused 8\n"), events > most, (most, events))


class Dumps(Folder):
    """The words `vcd` and `config`: what is read, and what a person can get wrong."""

    head = b"$timescale 1 ns $end\n" + b"".join(b"$var wire 1 %c %s $end\n" % c for c in zip(b"sdkmr", (b"cs", b"dc", b"clk", b"mosi", b"rst")))

    def setUp(self):
        super().setUp()
        (self.dir / "panel.config").write_bytes(capture()[-320:-8])

    def dump(self, body, head=head, name="night.vcd"):
        (self.dir / name).write_bytes(head + body)
        return name

    def byte(self, time, dc, value):
        bits = b"".join(b"%dm 1k 0k " % (value >> (7 - i) & 1) for i in range(8))
        return b"#%d %dd " % (time, dc) + bits

    def worked(self):
        """The capture's own bytes, as an analyser has them."""
        body = b"0s 0k "
        file = capture()
        for at in range(0, len(file) - 320, 10):
            time, kind, value = int.from_bytes(file[at : at + 8], "little"), file[at + 8], file[at + 9]
            body += self.byte(time, kind - 1, value) if kind < 3 else b"#%d " % time
        return self.dump(body)

    def test_the_same_as_a_capture(self):
        name = self.worked()
        for form, *top in (["lines"], ["pgm"], ["png"], ["pgm", "65535"], ["pgm", "0"], ["pgm", "7"], ["png", "255"], ["png", "65535"]):
            with self.subTest(form=form, top=top):
                wanted = self.run_it(form, "good.capture", *top).stdout
                self.assertTrue(wanted)
                self.says(self.run_it("vcd", "panel.config", name, form, *top), wanted, b"")
                self.says(self.run_it("vcd", "panel.config", "-", form, *top, data=(self.dir / name).read_bytes()), wanted, b"")
                words = " ".join([form, *top]).encode()
                self.says(self.run_it(data=b"vcd panel.config %s %s > out\n" % (name.encode(), words)), b"", b"")
                self.assertEqual((self.dir / "out").read_bytes(), wanted)
        self.says(self.run_it("vcd", "panel.config", name), self.run_it("lines", "good.capture").stdout, b"")

    def test_config(self):
        self.says(self.run_it("config", "good.capture"), (self.dir / "panel.config").read_bytes(), b"")
        self.says(self.run_it("config", "panel.config"), b"refused 8\n", b"panel.config: refused 8: broken capture: 312 bytes, at least 320\n")
        self.says(self.run_it("config", "missing"), b"", b"missing: ")
        (self.dir / "rated.capture").write_bytes(rated(capture(), 32_768))
        self.says(self.run_it("config", "rated.capture"), (self.dir / "panel.config").read_bytes(), b"")

    def test_configurations(self):
        name = self.worked()
        config = (self.dir / "panel.config").read_bytes()
        for bytes_, number, words in (
            (config[:-1], 8, b"broken capture: 311 bytes, a configuration has 312"),
            (config + b"\0", 8, b"broken capture: 313 bytes, a configuration has 312"),
            (config + struct.pack("<Q", 10**9), 8, b"broken capture: 320 bytes, a configuration has 312"),
            (b"\2" + config[1:], 9, b"bad event: variant 2, at most 1"),
            (config[:1] + b"\x10" + config[2:], 9, b"bad event: flags 16, at most 15"),
            (config[:2] + b"\0\0" + config[4:], 1, b"empty panel"),
        ):
            with self.subTest(words=words):
                (self.dir / "other.config").write_bytes(bytes_)
                self.says(self.run_it("vcd", "other.config", name), b"refused %d\n" % number, b"other.config: refused %d: %s" % (number, words))
        # 8 comes before 11, and 11 before 9
        bad = self.dump(b"0s 0k #5 #4 ", name="bad.vcd")
        (self.dir / "other.config").write_bytes(b"\2" + config[1:])
        self.says(self.run_it("vcd", "other.config", bad), b"refused 11\n", b"bad.vcd: refused 11: ")
        (self.dir / "other.config").write_bytes(config[:-1])
        self.says(self.run_it("vcd", "other.config", bad), b"refused 8\n", b"other.config: refused 8: ")

    def test_malformed(self):
        for body, words in (
            (b"#5\n#4\n", b"line 8: #4"),
            (b"#0\nxs\n", b"line 8: xs"),
            (b"#0\n1s\n$dumpvars\n1s\n", b"ends within a section, a comment or a change"),
            (b"#18446744073709551616\n", b"line 7: #18446744073709551616"),
            (b"\n\n\n" + b"#1 " * 40_000 + b"\n1\x07q\n", b"line 11: 1?q"),
        ):
            with self.subTest(words=words):
                self.says(self.run_it("vcd", "panel.config", self.dump(body)), b"refused 11\n", b"night.vcd: refused 11: malformed dump: " + words)
        for head, words in ((b"", b"no timescale"), (b"$timescale 1 ps $end\n", b"in the declarations"), (b"$timescale 1 ns\n", b"ends within a declaration")):
            with self.subTest(words=words):
                self.says(self.run_it("vcd", "panel.config", self.dump(b"", head)), b"refused 11\n", b"night.vcd: refused 11: malformed dump: " + words)

    def test_signals(self):
        lines = self.head.splitlines(keepends=True)
        for left, name in zip(range(1, 6), (b"cs", b"dc", b"clk", b"mosi", b"rst")):
            with self.subTest(name=name):
                head = b"".join(lines[:left] + lines[left + 1 :])
                self.says(self.run_it("vcd", "panel.config", self.dump(b"#1 ", head)), b"refused 12\n", b"night.vcd: refused 12: signals: %s missing\n" % name)
        for more in (b"$var wire 1 z cs $end ", b"$var wire 1 s cs $end "):
            self.says(self.run_it("vcd", "panel.config", self.dump(more + b"#1 ")), b"refused 12\n", b"night.vcd: refused 12: signals: one of ")

    def test_limits(self):
        self.says(self.run_it("vcd", "panel.config", self.dump(b"", b"$comment " + b"a b " * 300_000 + b"$end ")), b"", b"night.vcd: the declarations and a word")
        self.says(self.run_it("vcd", "panel.config", self.dump(b"#0 $comment " + b"a" * 70_000 + b" $end ")), b"", b"night.vcd: a word has more than 65,537 bytes")

    def test_words(self):
        name = self.worked()
        for words in ([], ["panel.config"], ["panel.config", name, "gif"], ["panel.config", name, "lines", "255"], ["panel.config", name, "pgm", "255", "x"]):
            with self.subTest(words=words):
                self.says(self.run_it("vcd", *words), b"", b"jollanqe: vcd wants ")
        self.says(self.run_it("vcd", "-", "-"), b"", b"jollanqe: standard input can be one of the two files, not both\n")
        self.says(self.run_it("vcd", "panel.config", "missing"), b"", b"missing: ")
        self.says(self.run_it("vcd", "missing", name), b"", b"missing: ")
        before = (self.dir / name).read_bytes()
        for out in (name, "panel.config"):
            result = self.run_it(data=b"vcd panel.config %s > %s\n" % (name.encode(), out.encode()))
            self.assertIn(b"would be written over", result.stderr)
        self.assertEqual((self.dir / name).read_bytes(), before)
        # no output is made for a dump that is refused
        self.dump(b"#5 #4 ", name="bad.vcd")
        self.says(self.run_it(data=b"vcd panel.config bad.vcd png > out.png\n"), b"refused 11\n", b"bad.vcd: ")
        self.assertFalse((self.dir / "out.png").exists())


class Wrong(Folder):
    words = (["lines", "FILE"], ["pgm", "FILE"], ["png", "FILE"], ["cuts", "FILE"], ["pictures", "FILE", "made"], ["compare", "FILE", "good.capture"])

    def each(self, name):
        return [[name if w == "FILE" else w for w in words] for words in self.words]

    def test_files_that_are_no_captures(self):
        (self.dir / "empty").write_bytes(b"")
        (self.dir / "cut").write_bytes(capture()[:400])
        (self.dir / "long").write_bytes(bytes(65_540))
        (self.dir / "random").write_bytes(random.Random(2).randbytes(5_000))
        for name in ("empty", "cut", "long", "random"):
            for words in self.each(name):
                with self.subTest(words=words):
                    out = b"refused 8 %s\n" % name.encode() if words[0] == "compare" else b"refused 8\n"
                    self.says(self.run_it(*words), out, b"%s: refused 8: broken capture: " % name.encode())
                    self.assertFalse((self.dir / "made").exists())

    def test_no_file(self):
        for name in (".", "missing", "missing/file"):
            for words in self.each(name):
                with self.subTest(words=words):
                    self.says(self.run_it(*words), b"", name.encode() + b": ")

    def test_full_disk(self):
        for words in [["help"], *self.each("good.capture")[:3], *self.each("good.capture")[4:]]:
            with self.subTest(words=words), open("/dev/full", "wb") as full:
                result = self.run_it(*words, stdout=full)
                self.assertTrue(result.stderr.startswith(b"standard output: "), result.stderr)

    def test_closed_streams(self):
        def shell(text):
            return subprocess.run(["sh", "-c", text], cwd=self.dir, stdout=subprocess.PIPE, stderr=subprocess.PIPE, timeout=60)

        self.assertTrue(shell(f"{PROGRAM} lines good.capture >&-").stderr.startswith(b"standard output: "))
        for words in ("lines -", ""):
            result = shell(f"{PROGRAM} {words} <&-")
            self.assertEqual(result.stdout, b"")
            self.assertTrue(result.stderr.startswith(b"standard input: "), result.stderr)
        # a file takes the place of no closed stream: what is said is not written into it
        (self.dir / "made" / "1.png").mkdir(parents=True)
        shell(f"echo 'pictures good.capture made > list.txt' | {PROGRAM} 2>&-")
        self.assertNotIn(b"Is a directory", (self.dir / "list.txt").read_bytes())

    def test_reader_that_goes_away(self):
        big = capture(800, 600)
        (self.dir / "big.capture").write_bytes(big)
        result = subprocess.run(["sh", "-c", f"{PROGRAM} lines big.capture | head -c 10"], cwd=self.dir, stdout=subprocess.PIPE, timeout=60)
        self.assertEqual(result.stdout, b"diag 100 1")

    def test_more_than_a_capture_by_a_pipe(self):
        result = self.run_it("png", "-", data=bytes(20_000_000))
        self.says(result, b"refused 8\n", b"-: refused 8: broken capture: 20,000,000 bytes, at most 65,536\n")

    def test_words(self):
        self.says(self.run_it("lines"), b"", b"jollanqe: lines wants one file, as in: jollanqe lines night.capture\n")
        self.says(self.run_it("lines", "a", "b"), b"", b"jollanqe: lines wants one file")
        self.says(self.run_it("line", "a"), b"", b"jollanqe: no such word: line; jollanqe help says all of them\n")
        self.says(self.run_it("help", "me"), b"", b"jollanqe: help stands alone")
        for words in (["", "lines", "good.capture"], ["compare", "", "good.capture", "good.capture"], [""]):
            self.says(self.run_it(*words), b"", b"jollanqe: one of the words is empty\n")
        two = "/" * (4_095 - len(str(self.dir)) - 13) + str(self.dir) + "/good.capture"
        self.says(self.run_it("compare", two, two), b"", b"jollanqe: the words have more than 8,190 bytes together\n")

    def test_batch(self):
        jobs = b"lines good.capture > one.txt\n\nhelp > h.txt\npng good.capture > good.capture\nlines -\npng missing\n" + b"x" * 9_000 + b"\npgm good.capture > two.pgm\n"
        result = self.run_it(data=jobs)
        self.assertEqual(result.stdout, b"")
        said = result.stderr.splitlines()
        self.assertEqual(said[0], b"jollanqe: help stands alone, and writes to standard output")
        self.assertEqual(said[1], b"jollanqe: an input would be written over: name another file")
        self.assertEqual(said[2], b"jollanqe: standard input is the batch itself: name a file")
        self.assertTrue(said[3].startswith(b"missing: "))
        self.assertEqual(said[4], b"a line is longer than 8,192 bytes")
        self.assertEqual((self.dir / "one.txt").read_bytes(), self.run_it("lines", "good.capture").stdout)
        self.assertEqual((self.dir / "two.pgm").read_bytes(), self.run_it("pgm", "good.capture").stdout)
        self.assertEqual((self.dir / "good.capture").read_bytes(), capture())


if __name__ == "__main__":
    unittest.main()
