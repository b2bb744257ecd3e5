#!/usr/bin/env python3
"""tools/morning: the summary and the status, names, pictures, photographs, refusals, diagnostics, cuts, and all
that can go wrong. Captures are made here; what is expected of them is what docs/FORMAT.md says. Run by tools/check,
after jollanqe is built; JOLLANQE_PROGRAM names another program."""

import base64
import html.parser
import importlib.machinery
import importlib.util
import os
import re
import signal
import stat
import struct
import subprocess
import sys
import tempfile
import time
import unittest
import urllib.parse
import zlib
from pathlib import Path

sys.dont_write_bytecode = True
ROOT = Path(__file__).resolve().parent.parent
MORNING = ROOT / "tools" / "morning"
PROGRAM = os.path.abspath(os.environ.get("JOLLANQE_PROGRAM", ROOT / "target" / "bin" / "jollanqe"))
FORMAT = (ROOT / "docs" / "FORMAT.md").read_text("utf-8")
COMMAND, DATA, READ, RESET, ADVANCE = 1, 2, 3, 4, 5
SWING = 28_000_000


def send(time, command, *data):
    return [(time, COMMAND, command)] + [(time, DATA, byte) for byte in data]


def capture(events, variant=0, flags=4, sources=8, gates=1, grey=0, swing=SWING, power_on=100, periods=(1_000,) * 32):
    body = b"".join(struct.pack("<QBB", *event) for event in events)
    times = (power_on, 0, 0, 0, 0)
    config = struct.pack("<BBHHBB38Q", variant, flags, sources, gates, grey, 0, swing, *times, *periods)
    return body + config + struct.pack("<II", len(body), len(events))


def rated(file, rate):
    """A capture with a rate behind its configuration."""
    return file[:-8] + struct.pack("<Q", rate) + file[-8:]


def started(frames=1):
    """A refresh of so many frames, and two, starts at 100: four pixels from black to white."""
    table = [0x80, frames, 0, 0, 0, 1] + [0] * 36
    return send(0, 0x00, 0x3F) + send(0, 0x04) + send(100, 0x22, *table) + send(100, 0x13, 0xF0) + send(100, 0x12)


CLEAN = capture(started() + [(3_100, ADVANCE, 0)])
# the worked example of docs/FORMAT.md
EXAMPLE = capture(
    send(0, 0x00, 0x3F)
    + send(0, 0x04)
    + send(100, 0x22, 0x80, 1, 0, 0, 0, 1)
    + send(100, 0x13, 0xF0)
    + send(100, 0x12)
    + [(3_100, ADVANCE, 0)]
)
# `cut 3099 2 6`
CUT = capture(started(4) + [(3_099, RESET, 1)])
QUIET = capture([])
REFUSED = capture([(0, 9, 0)])
JPEG = b"\xff\xd8\xff\xe0" + bytes(60)


def chunk(kind, data):
    return struct.pack(">I", len(data)) + kind + data + struct.pack(">I", zlib.crc32(kind + data))


def png(width, height, colour=2, level=6):
    rows = (b"\0" + bytes(width * (3 if colour == 2 else 1))) * height
    head = struct.pack(">IIBBBBB", width, height, 8, colour, 0, 0, 0)
    return b"\x89PNG\r\n\x1a\n" + chunk(b"IHDR", head) + chunk(b"IDAT", zlib.compress(rows, level)) + chunk(b"IEND", b"")


PHOTOGRAPH = png(40, 30)


def loaded():
    """The tool as a module."""
    loader = importlib.machinery.SourceFileLoader("morning", str(MORNING))
    tool = importlib.util.module_from_spec(importlib.util.spec_from_loader("morning", loader))
    sys.modules["morning"] = tool
    loader.exec_module(tool)
    return tool


class Tags(html.parser.HTMLParser):
    """The tags of a page, of which each is closed; its links and sources; its text."""

    def __init__(self, page):
        super().__init__()
        self.open, self.wrong, self.seen, self.links, self.ids, self.text = [], [], [], [], [], ""
        self.feed(page)
        self.close()

    def handle_starttag(self, tag, attributes):
        self.seen.append(tag)
        for name, value in attributes:
            if name in ("src", "href"):
                self.links.append(value)
            if name == "id":
                self.ids.append(value)
        if tag not in ("meta", "img", "br"):
            self.open.append(tag)

    def handle_endtag(self, tag):
        if not self.open or self.open.pop() != tag:
            self.wrong.append(tag)

    def handle_data(self, data):
        self.text += data


class Case(unittest.TestCase):
    def setUp(self):
        self.place = tempfile.TemporaryDirectory()
        self.addCleanup(self.place.cleanup)
        self.base = Path(self.place.name)
        self.night = self.base / "night"
        self.night.mkdir()
        self.space = self.base / "space"
        self.space.mkdir()
        self.environment = {**os.environ, "TMPDIR": str(self.space)}

    def put(self, **files):
        for name, data in files.items():
            (self.night / f"{name}.capture").write_bytes(data)

    def run_morning(self, *arguments, program=None, folder=None, **options):
        command = [sys.executable, MORNING, folder or self.night, *arguments, "--program", program or PROGRAM]
        run = subprocess.run(command, capture_output=True, env=self.environment, timeout=120, **options)
        self.status = run.returncode
        self.out = run.stdout.decode("utf-8", "replace")
        self.err = run.stderr.decode("utf-8", "replace")
        self.assertEqual(os.listdir(self.space), [], "something is left in the temporary folder")
        self.assertEqual([name for name in os.listdir(self.night) if name.endswith(".part")], [])
        self.assertNotIn("Traceback", self.err)

    def page(self, path=None):
        text = (path or self.night / "morning.html").read_text("utf-8")
        tags = Tags(text)
        self.assertEqual((tags.open, tags.wrong), ([], []))
        return text

    def shows(self, *arguments, status=0, **options):
        """Runs it; the page."""
        self.run_morning(*arguments, **options)
        self.assertEqual(self.status, status, self.err)
        return self.page()

    def article(self, page, name):
        for part in page.split("<article")[1:]:
            if f"<h2><bdi>{name}.capture</bdi>" in part:
                return part.split("</article>")[0]
        self.fail(f"no article of {name}")

    def program(self, text):
        """A stand-in for the program."""
        path = self.base / "stand-in"
        path.write_text(text)
        path.chmod(path.stat().st_mode | stat.S_IXUSR)
        return path

    def trouble(self, words, *arguments, **options):
        """Status 2, the words, and yesterday's page as it was."""
        yesterday = self.night / "morning.html"
        yesterday.write_text("yesterday")
        self.run_morning(*arguments, **options)
        self.assertEqual(self.status, 2)
        self.assertEqual(self.out, "")
        self.assertIn(words, self.err)
        self.assertTrue(all(line.startswith("morning: ") for line in self.err.splitlines()), self.err)
        self.assertEqual(yesterday.read_text(), "yesterday")


class Summary(Case):
    def test_a_night(self):
        self.put(a=EXAMPLE, b=CUT, c=REFUSED, d=b"", e=QUIET)
        page = self.shows(status=1)
        summary = "5 captures, 2 refused, 1 refresh cut"
        self.assertEqual(self.out, f"{summary} | {self.night}/morning.html\n")
        self.assertEqual(self.err, "")
        self.assertIn(f"<title>night: {summary}</title>", page)
        self.assertIn("<h1>Captures of <bdi>night</bdi></h1>", page)
        self.assertIn(f'<p class="summary">{summary}</p>', page)
        self.assertRegex(page, r'<p class="date">\d{4}-\d\d-\d\d \d\d:\d\d</p>')

    def test_one_capture_and_several_cuts(self):
        twice = started(4) + [(3_099, RESET, 1), (3_099, RESET, 0)]
        twice += [(at + 5_000, kind, value) for at, kind, value in started(4)] + [(8_099, RESET, 1)]
        self.put(a=capture(twice))
        page = self.shows()
        self.assertTrue(self.out.startswith("1 capture, 0 refused, 2 refreshes cut | "), self.out)
        self.assertIn('<span class="badge cut">cut 2 times</span>', page)
        self.assertIn("<dt>cut (1)</dt>", page)

    def test_nothing_to_look_at(self):
        self.put(a=CLEAN)
        page = self.shows()
        self.assertTrue(self.out.startswith("1 capture, 0 refused, 0 refreshes cut | "), self.out)
        self.assertIn("Nothing to look at: every capture was played", page)
        self.assertNotIn("<nav", page)

    def test_the_index_leads_to_the_captures(self):
        self.put(a=EXAMPLE, b=CUT, c=REFUSED, e=QUIET, f=CLEAN)
        page = self.shows(status=1)
        index = re.findall(r"<dt>(.*?)</dt>\n<dd>(.*?)</dd>", page, re.S)
        found = {line: re.findall(r'<a href="#(c\d)"><bdi>(.)</bdi></a>', links) for line, links in index}
        wanted = {
            "refused (1)": [("c3", "c")],
            "cut (1)": [("c2", "b")],
            "no refresh ended (1)": [("c4", "e")],
            "diagnostics (2)": [("c1", "a"), ("c2", "b")],
        }
        self.assertEqual(found, wanted)
        self.assertEqual(Tags(page).ids, ["c1", "c2", "c3", "c4", "c5"])

    def test_a_long_index_is_folded(self):
        for n in range(41):
            self.put(**{f"n{n}": QUIET})
        page = self.shows()
        self.assertIn("<dt>no refresh ended (41)</dt>\n<dd><details><summary>all 41</summary>", page)

    def test_the_page_elsewhere(self):
        self.put(a=CLEAN)
        page = self.base / "my page.html"
        self.run_morning("-o", page)
        self.assertEqual(self.status, 0)
        self.assertTrue(self.out.endswith(f" | {page}\n"), self.out)
        self.assertIn("generation 1", self.page(page))
        self.assertEqual(os.listdir(self.night), ["a.capture"])

    def test_the_page_needs_no_network(self):
        self.put(a=EXAMPLE, b=CUT, c=REFUSED)
        (self.night / "a.jpg").write_bytes(JPEG)
        page = self.shows(status=1)
        self.assertIn("content=\"default-src 'none'; img-src data: file: 'self'; style-src 'unsafe-inline'\"", page)
        tags = Tags(page)
        self.assertFalse({"script", "link", "iframe", "form"} & set(tags.seen))
        self.assertTrue(all(link.startswith(("#c", "data:image/")) for link in tags.links), tags.links)
        self.assertNotRegex(page, r"https?:|url\(|@import")
        self.assertIn("This page is not proved.", page)


class Names(Case):
    def test_which_files_are_captures(self):
        for name in ("a.capture", "B.CAPTURE", ".hidden.capture", "notes.txt", "capture", "a.capture.bak"):
            (self.night / name).write_bytes(CLEAN)
        (self.night / "folder").mkdir()
        page = self.shows()
        self.assertTrue(self.out.startswith("2 captures, "), self.out)
        self.assertEqual(re.findall(r"<h2><bdi>(.*?)</bdi>", page), ["a.capture", "B.CAPTURE"])
        self.assertIn("<p>5 other files and folders passed over.", page)
        self.assertIn("<p>5 other files and folders passed over.", self.shows())  # its own page is none of them

    def test_numbers_are_in_order(self):
        for n in ("10", "9", "2", "1", "²"):
            self.put(**{f"night-{n}": CLEAN})
        page = self.shows()
        self.assertEqual(re.findall(r"<bdi>night-(.+)\.capture</bdi>", page), ["1", "2", "9", "10", "²"])

    def test_names_that_a_batch_cannot_hold(self):
        names = ["two  blanks", "a > b", 'say "x"', "it's", "<b>bold&amp;", "-", "--help", "$(id)", "été", "> x"]
        for name in names:
            self.put(**{name: EXAMPLE})
        self.put(**{"<i>refused": REFUSED})
        page = self.shows(status=1)
        self.assertNotRegex(page, "<i>|<b>bold")
        titles = {html.unescape(name) for name in re.findall(r"<h2><bdi>(.*?)</bdi>", page)}
        self.assertEqual(titles, {f"{name}.capture" for name in [*names, "<i>refused"]})
        self.assertEqual(page.count("<b>table length</b>: 6 bytes received"), len(names))
        self.assertIn("event 0: kind 9", self.article(page, "&lt;i&gt;refused"))

    def test_names_that_are_no_text(self):
        folder = os.fsencode(self.night)
        for name in (b"a\nb", b"c\xff", "\u202eright".encode()):
            with open(os.path.join(folder, name + b".capture"), "wb") as file:
                file.write(CLEAN)
        page = self.shows()
        for name in (r"a\nb", r"c\xff", r"\u202eright"):
            self.article(page, name)
        os.symlink(b"nowhere", os.path.join(folder, b"d\ne.capture"))
        self.shows(status=2)
        self.assertEqual(self.err, "morning: d\\ne.capture: could not be read: No such file or directory\n")

    def test_the_folder_is_escaped(self):
        folder = self.base / "<u>night"
        folder.mkdir()
        (folder / "a.capture").write_bytes(CLEAN)
        self.run_morning(folder=folder)
        page = self.page(folder / "morning.html")
        self.assertEqual((self.status, page.count("<u>")), (0, 0))
        self.assertIn("<h1>Captures of <bdi>&lt;u&gt;night</bdi></h1>", page)


class Pictures(Case):
    def greys(self, article):
        data = base64.b64decode(re.search(r'<img[^>]* src="data:image/png;base64,([^"]*)"', article)[1])
        width, height, depth, colour = struct.unpack_from(">IIBB", data, 16)
        length = struct.unpack_from(">I", data, 33)[0]
        self.assertEqual((depth, colour, data[37:41]), (8, 0, b"IDAT"))
        rows = zlib.decompress(data[41 : 41 + length])
        self.assertEqual(data[41 + length + 4 :], chunk(b"IEND", b""))
        return width, height, rows

    def test_the_greys_are_the_programs(self):
        self.put(a=EXAMPLE)
        article = self.article(self.shows(), "a")
        self.assertEqual(self.greys(article), (8, 1, bytes([0, 128, 128, 128, 128, 0, 0, 0, 0])))
        self.assertIn('alt="Picture of the model for a.capture, 8 by 1 pixels"', article)
        self.assertIn("model: 8 by 1, generation 1, full, from 100 to 3,100 ns</figcaption>", article)

    def test_small_ones_are_sharp_and_the_box_has_their_shape(self):
        large = capture([], sources=800, gates=600, grey=255)
        self.put(large=large, small=QUIET, tall=capture([], sources=1, gates=600), even=capture([], sources=99, gates=66))
        page = self.shows()
        article = self.article(page, "large")
        self.assertIn('style="--ratio:1.333"', article)
        self.assertNotIn('class="sharp"', article)
        self.assertEqual(self.greys(article), (800, 600, (b"\0" + b"\xff" * 800) * 600))
        self.assertLess(len(article), 8_000)
        for name, ratio in (("small", "2.000"), ("tall", "0.750"), ("even", "1.500")):
            self.assertIn(f'style="--ratio:{ratio}"', self.article(page, name))
            self.assertIn('<img class="sharp" ', self.article(page, name))

    def test_no_refresh_has_ended(self):
        self.put(a=QUIET)
        self.assertIn("model: 8 by 1, as at the start: no refresh has ended</figcaption>", self.shows())

    def test_cuts(self):
        self.put(a=CUT)
        article = self.article(self.shows(), "a")
        self.assertIn('<span class="badge cut">cut</span> <span class="badge noted">1 diagnostic</span>', article)
        self.assertIn('<p class="cut">cut at 3,099 ns after 2 of 6 frames</p>', article)
        self.assertIn("from 100 to 3,099 ns, interrupted by reset</figcaption>", article)
        self.assertIn("<td>3,099</td><td>15</td><td><b>reset during refresh</b>", article)


class Photographs(Case):
    def sources(self, article):
        return re.findall(r'<img src="([^"]*)" alt="Photograph ([^"]*)">', article)

    def test_it_stands_beside_the_picture(self):
        self.put(a=CLEAN, b=EXAMPLE, c=REFUSED)
        (self.night / "a.jpg").write_bytes(JPEG)
        (self.night / "b.png").write_bytes(PHOTOGRAPH)
        (self.night / "c.JPEG").write_bytes(JPEG)
        (self.night / "d.jpg").write_bytes(JPEG)
        page = self.shows(status=1)
        jpeg = "data:image/jpeg;base64," + base64.b64encode(JPEG).decode()
        wanted = "data:image/png;base64," + base64.b64encode(PHOTOGRAPH).decode()
        self.assertEqual(self.sources(self.article(page, "a")), [(jpeg, "a.jpg")])
        self.assertEqual(self.sources(self.article(page, "b")), [(wanted, "b.png")])
        self.assertEqual(self.sources(self.article(page, "c")), [(jpeg, "c.JPEG")])
        self.assertIn("<figcaption>photograph <bdi>a.jpg</bdi></figcaption>", page)
        self.assertIn('<div class="wide"><table class="diagnostics">', self.article(page, "b"))
        self.assertIn("<p>1 other file or folder passed over.", page)

    def test_a_picture_of_the_model_is_no_photograph(self):
        self.put(a=EXAMPLE, b=REFUSED)
        picture = subprocess.run([PROGRAM, "png", self.night / "a.capture"], capture_output=True, check=True).stdout
        (self.night / "a.png").write_bytes(picture)
        (self.night / "b.png").write_bytes(picture)
        page = self.shows(status=1)
        self.assertEqual(self.sources(page), [])
        self.assertIn("<p>2 other files and folders passed over.", page)
        (self.night / "a.png").write_bytes(png(8, 1, colour=0))
        self.assertEqual(self.sources(self.shows(status=1))[0][1], "a.png")

    def test_a_large_one_is_linked(self):
        self.put(**{"a & b": CLEAN})
        (self.night / "a & b.jpg").write_bytes(JPEG + bytes(2_700_000))
        page = self.shows()
        self.assertEqual(self.sources(page), [("a%20%26%20b.jpg", "a &amp; b.jpg")])
        self.assertIn("(2.7 MB: linked, not in this page)", page)
        other = self.base / "else" / "where.html"
        other.parent.mkdir()
        self.run_morning("-o", other)
        link = self.sources(self.page(other))[0][0]
        self.assertEqual(os.path.normpath(other.parent / urllib.parse.unquote(link)), str(self.night / "a & b.jpg"))

    def test_all_together_have_a_bound(self):
        tool = loaded()
        self.assertEqual((tool.PHOTOGRAPH, tool.PHOTOGRAPHS), (2_000_000, 64_000_000))
        for name in "abc":
            (self.night / f"{name}.jpg").write_bytes(JPEG)
        photographs = tool.Photographs(str(self.night), os.listdir(self.night))
        photographs.left = 2 * len(JPEG)
        found = [photographs.of(tool.Capture(1, f"{name}.capture", "")).data for name in "abc"]
        self.assertEqual(found, [JPEG, JPEG, b""])

    def test_neither_jpeg_nor_png(self):
        self.put(a=CLEAN)
        (self.night / "a.jpg").write_bytes(b"\0\0\0\x18ftypheic" + bytes(100))
        page = self.shows(status=2)
        self.assertEqual(self.err, "morning: a.jpg: could not be shown: neither a JPEG nor a PNG file\n")
        self.assertTrue(self.out.startswith("1 capture, 0 refused, 0 refreshes cut | "), self.out)
        self.assertIn("<p><bdi>a.jpg</bdi> could not be shown: neither a JPEG nor a PNG file</p>", page)
        self.assertIn("<figcaption>no photograph</figcaption>", page)


class Refusals(Case):
    def refused(self, number, words, data):
        self.put(a=data)
        article = self.article(self.shows(status=1), "a")
        self.assertIn(f'<span class="badge refused">refused {number}</span>', article)
        self.assertIn(f'<p class="refusal"><b>refused {number}</b>: {words}</p>', article)
        self.assertNotIn("<img", article)
        self.assertTrue(self.out.startswith("1 capture, 1 refused, 0 refreshes cut | "), self.out)
        return article

    def test_broken_captures(self):
        self.refused(8, "broken capture: 88 bytes, at least 320", bytes(88))
        self.refused(8, "broken capture: 65,540 bytes, at most 65,536", capture([(0, 5, 0)] * 6_522))
        self.refused(8, "broken capture: 30,000,000 bytes, at most 65,536", bytes(30_000_000))
        article = self.refused(8, "broken capture: offset 20 for 1 events, not 10", QUIET[:-8] + struct.pack("<II", 20, 1))
        self.assertIn('<p class="meaning">Look at the length, which is 320 + 10 × n, or 328 + 10 × n with a rate; the last 8 bytes.', article)

    def test_bad_events(self):
        events = [(0, ADVANCE, 0)] * 17
        article = self.refused(9, "bad event: event 17: kind 3, value 5", capture(events + [(0, READ, 5)]))
        self.assertIn("A read stored with the byte that was seen is the easy mistake</p>", article)
        self.refused(9, "bad event: event 17: kind 9", capture(events + [(0, 9, 0)]))

    def test_configurations(self):
        self.refused(1, "empty panel", capture([], gates=0))
        article = self.refused(2, "oversized panel", capture([], sources=801))
        self.assertIn("Look at configuration +2 to +5; the two bytes of a number exchanged</p>", article)
        self.refused(3, "swing", capture([], swing=0))
        self.refused(4, "frame period", capture([], periods=(1,) * 31 + (0,)))
        self.refused(13, "rate out of range", rated(QUIET, 0))
        self.refused(13, "rate out of range", rated(CLEAN, 1_000_000_001))

    def test_a_rate(self):
        self.put(a=rated(CLEAN, 1_000_000_000), b=CLEAN)
        page = self.shows()
        self.assertIn("from 100 to 3,100 cycles</figcaption>", self.article(page, "a"))
        self.assertIn("from 100 to 3,100 ns</figcaption>", self.article(page, "b"))

    def test_an_empty_file(self):
        self.refused(8, "no events (empty file). Nobody captured.", b"")

    def test_the_words_are_those_of_the_papers(self):
        tool = loaded()
        rows = dict(re.findall(r"^\| (\d+) \| [^|]* \| [^|]* \| ([^|]*) \|$", FORMAT, re.M))
        for number, look in tool.LOOK.items():
            paper = rows[str(number)].split(" (Of zero bytes")[0].replace("the same;", "configuration +2 to +5;")
            self.assertEqual(look, paper)
        kinds = re.findall(r"^\| (\d+) ([a-z ]+) \|[^|]*\| ([^|]*) \|$", FORMAT, re.M)
        wanted = {int(kind): (name, text.replace(" (table below)", "")) for kind, name, text in kinds}
        self.assertEqual(sorted(wanted), list(range(1, 16)))
        self.assertEqual(tool.KINDS, wanted)
        section = FORMAT.split("### Command bytes")[1].split("\n## ")[0]
        names = re.findall(r"\b([0-9A-F]{2}) = \d+ ((?:white|black) to \w+|[A-Z]\w*)", section)
        self.assertEqual(tool.COMMANDS, {int(code, 16): name for code, name in names})


class Diagnostics(Case):
    def rows(self, article):
        body = article.split('<table class="diagnostics">')[1].split("</table>")[0]
        return [re.findall(r"<td>(.*?)</td>", row) for row in re.findall(r"<tr>(<td>.*?)</tr>", body)]

    def test_a_row_in_words(self):
        self.put(a=EXAMPLE)
        article = self.article(self.shows(), "a")
        time, kind, command, words = self.rows(article)[0]
        self.assertEqual((time, kind, command), ("100", "13", "<code>22</code> black to white"))
        self.assertTrue(words.startswith('<b>table length</b>: 6 bytes received<br><span class="meaning">A table of'))
        self.assertIn("<caption>1 diagnostic</caption>", article)

    def test_the_fields_of_each_kind(self):
        events = [(0, DATA, 0x5A)] + send(0, 0xEE) + send(0, 0x17) + send(0, 0x02, 1) + send(0, 0x61, 1, 2)
        events += send(0, 0x07, 0x3A) + send(0, 0x12) + send(0, 0x00, 0x3F) + send(0, 0x12)
        events += send(0, 0x71) + [(0, READ, 0)] + send(0, 0x04) + send(50, 0x12)
        self.put(a=capture(events))
        rows = self.rows(self.article(self.shows(), "a"))
        found = [(kind, command, words.split("<br>")[0]) for _, kind, command, words in rows]
        wanted = [
            ("3", "", "<b>data without command</b>: data byte <code>5A</code>"),
            ("1", "<code>EE</code>", "<b>unknown command</b>"),
            ("2", "<code>17</code> AUTO", "<b>unsupported command</b>"),
            ("5", "<code>17</code> AUTO", "<b>missing data</b>: 0 received, at least 1 wanted"),
            ("4", "<code>02</code> POF", "<b>extra data</b>"),
            ("5", "<code>61</code> TRES", "<b>missing data</b>: 2 received, at least 4 wanted"),
            ("9", "", "<b>wrong check code</b>: code <code>3A</code>"),
            ("11", "", "<b>refresh not modelled</b>: tables from the OTP"),
            ("12", "", "<b>refresh without power</b>"),
            ("14", "<code>71</code> FLG", "<b>nothing to read</b>"),
            ("6", "<code>12</code> DRF", "<b>while busy</b>"),
        ]
        self.assertEqual(found, wanted)

    def test_forty_rows_and_one_of_every_kind(self):
        self.put(a=capture(send(0, 0xEE) * 900 + send(0, 0x02, 1) + send(0, 0xEF) * 133))
        article = self.article(self.shows(), "a")
        rows = self.rows(article)
        self.assertEqual([row[1] for row in rows], ["1"] * 40 + ["4"])
        self.assertEqual(article.count('<span class="meaning">'), 2)
        self.assertIn("<caption>1,024 diagnostics: 1,023 of kind 1, 1 of kind 4</caption>", article)
        self.assertIn("<p>and 983 more diagnostics: <code>jollanqe lines</code> prints all</p>", article)
        self.assertIn("<p>10 later diagnostics found no room: 1,024 are kept</p>", article)
        self.assertIn('<span class="badge noted">1,034 diagnostics</span>', article)

    def test_reads(self):
        # a UC8279d: 71 gives 13, supplies off and idle; a second read of it gives nothing
        few = send(0, 0x71) + [(7, READ, 0), (1_234, READ, 0)]
        self.put(a=capture(few, variant=1), b=capture([(0, READ, 0)] * 13), c=capture([(0, READ, 0)] * 201))
        page = self.shows()
        article = self.article(page, "a")
        self.assertIn("<details open><summary>2 reads</summary>", article)
        self.assertIn("<tr><td>7</td><td><code>13</code></td></tr>\n<tr><td>1,234</td><td>nothing driven</td></tr>", article)
        self.assertIn("<details><summary>13 reads</summary>", self.article(page, "b"))
        self.assertIn("<p>and 1 more read: <code>jollanqe lines</code> prints all</p>", self.article(page, "c"))


class WhatGoesWrong(Case):
    def test_captures_that_cannot_be_read(self):
        self.put(a=EXAMPLE, b=CUT)
        (self.night / "gone.capture").symlink_to("nowhere")
        (self.night / "folder.capture").mkdir()
        os.mkfifo(self.night / "pipe.capture")
        (self.night / "gone.jpg").write_bytes(JPEG)
        page = self.shows(status=2)
        wanted = [
            "morning: folder.capture: could not be read: Is a directory",
            "morning: gone.capture: could not be read: No such file or directory",
            "morning: pipe.capture: could not be read: not a regular file",
        ]
        self.assertEqual(self.err.splitlines(), wanted)
        self.assertTrue(self.out.startswith("5 captures, 0 refused, 1 refresh cut, 3 not shown | "), self.out)
        self.assertIn("<dt>not shown (3)</dt>", page)
        article = self.article(page, "gone")
        self.assertIn('<span class="badge trouble">not shown</span>', article)
        self.assertIn("<b>not shown</b>: could not be read: No such file or directory</p>", article)
        self.assertIn("Photograph gone.jpg", article)
        self.assertIn("generation 1", self.article(page, "b"))

    def test_no_folder(self):
        self.trouble("could not be read: No such file or directory", folder=self.base / "nowhere")
        self.trouble("could not be read: Not a directory", folder=self.night / "morning.html")

    def test_no_captures(self):
        self.trouble("night: no captures in it (NAME.capture)")

    def test_no_program(self):
        self.put(a=CLEAN)
        self.trouble("nowhere: could not be run: No such file or directory", program=self.base / "nowhere")
        self.trouble("night: could not be run: Permission denied", program=self.night)

    def test_a_program_that_dies(self):
        self.put(**{f"n{n}": CLEAN for n in range(5)})
        half = f"#!/bin/sh\nhead -n 12 | {PROGRAM}\necho out of ideas >&2\nexit 3\n"
        self.trouble("stand-in: ended with status 3 before it was done: out of ideas", program=self.program(half))
        self.trouble("ended by signal 9 before it was done", program=self.program("#!/bin/sh\nread job\nkill -9 $$\n"))

    def test_a_program_without_cuts(self):
        self.put(a=CLEAN)
        older = f"#!/bin/sh\nsed -u 's/^cuts /slices /' | {PROGRAM}\n"
        self.trouble("stand-in: does not know the word cuts: jollanqe: no such word", program=self.program(older))

    def test_another_program(self):
        self.put(a=CLEAN)
        for other in ("cat", "yes", "cat /dev/zero"):
            self.trouble("does not answer as jollanqe does", program=self.program(f"#!/bin/sh\nexec {other}\n"))
        self.trouble("true: ended with status 0 before it was done", program="true")

    def test_a_job_that_cannot_write(self):
        self.put(a=EXAMPLE, b=capture([], sources=800, gates=600))
        tight = f"#!/bin/sh\ntrap '' XFSZ\nulimit -f 64\nexec {PROGRAM}\n"
        page = self.shows(status=2, program=self.program(tight))
        self.assertEqual(self.err, "morning: b.capture: a job failed: lines: File too large\n")
        self.assertTrue(self.out.startswith("2 captures, 0 refused, 0 refreshes cut, 1 not shown | "), self.out)
        self.assertIn("<b>not shown</b>: a job failed: lines: File too large</p>", self.article(page, "b"))
        self.assertIn("table length", self.article(page, "a"))

    def test_an_answer_that_is_not_understood(self):
        self.put(a=CLEAN)
        other = f"#!/bin/sh\nsed -u 's/^png 1 /pgm 1 /' | {PROGRAM}\n"
        page = self.shows(status=2, program=self.program(other))
        self.assertIn("the program&#x27;s answer was not understood: another picture than its head says</p>", page)

    def test_a_page_that_cannot_be_written(self):
        self.put(a=CLEAN)
        self.trouble("nowhere/page.html: could not be written: No such file or directory", "-o", self.base / "nowhere/page.html")
        self.trouble("night: could not be written: Is a directory", "-o", self.night)
        self.trouble("/dev/full: could not be written: No space left on device", "-o", "/dev/full")

    def test_a_page_that_is_half_written(self):
        self.put(a=CLEAN)
        (self.night / "morning.html").write_text("yesterday")
        tool = loaded()
        page = str(self.night / "morning.html")

        class Torn:
            def read(self, *_):
                raise OSError(28, "No space left on device")

        with self.assertRaises(tool.Trouble):
            tool.write_page(page, ("head", Torn()))
        self.assertEqual(sorted(os.listdir(self.night)), ["a.capture", "morning.html"])
        self.assertEqual(Path(page).read_text(), "yesterday")
        tool.write_page(page, ("whole",))
        self.assertEqual(Path(page).read_text(), "whole")

    def test_the_program_is_run_once(self):
        self.put(**{f"n{n}": CLEAN for n in range(9)})
        counting = f"#!/bin/sh\necho started >>{self.base}/starts\nexec {PROGRAM}\n"
        self.shows(program=self.program(counting))
        self.assertEqual((self.base / "starts").read_text(), "started\n")

    def test_copies_and_answers_do_not_pile_up(self):
        self.put(**{f"n{n}": CLEAN for n in range(9)})
        watching = f"#!/bin/sh\n{PROGRAM}\nls >{self.base}/left\n"
        self.shows(program=self.program(watching))
        self.assertEqual((self.base / "left").read_text().split(), ["body", "known", "mark"])

    def test_standard_output_full(self):
        self.put(a=CLEAN)
        command = [sys.executable, MORNING, self.night, "--program", PROGRAM]
        with open("/dev/full", "wb") as full:
            run = subprocess.run(command, stdout=full, stderr=subprocess.PIPE, env=self.environment, timeout=60)
        self.assertEqual((run.returncode, run.stderr), (2, b"morning: standard output: No space left on device\n"))

    def test_stopped(self):
        self.put(a=CLEAN)
        waiting = self.program("#!/bin/sh\nexec sleep 60\n")
        for name in (signal.SIGINT, signal.SIGTERM):
            command = [sys.executable, MORNING, self.night, "--program", waiting]
            run = subprocess.Popen(command, stderr=subprocess.PIPE, env=self.environment)
            until = time.monotonic() + 30
            while not list(self.space.glob("*/1")) and time.monotonic() < until:
                time.sleep(0.02)
            time.sleep(0.2)
            run.send_signal(name)
            _, words = run.communicate(timeout=30)
            self.assertEqual((run.returncode, words), (130, b"morning: stopped, no page written\n"))
            self.assertEqual((os.listdir(self.space), os.listdir(self.night)), ([], ["a.capture"]))


if __name__ == "__main__":
    if not os.access(PROGRAM, os.X_OK):
        sys.exit(f"test_morning: {PROGRAM} is not there: tools/build jollanqe builds it")
    unittest.main()
