#!/usr/bin/env python3
"""What a Python host can get wrong, each with its outcome; the layout of what crosses; and every stored
capture of oracle/cases through the library. Run by tools/check."""

import array
import ctypes
import os
import re
import subprocess
import sys
import tempfile
import threading
import unittest
from dataclasses import replace
from pathlib import Path

ROOT = Path(__file__).resolve().parent.parent
sys.path.insert(0, str(ROOT / "python"))
import jollanqe  # noqa: E402
from jollanqe import Configuration, Panel, Refused, event  # noqa: E402

HEADER = ROOT / "include" / "jollanqe.h"
SWING = 28_000_000
SMALL = Configuration(
    sources=8,
    gates=1,
    full_swing=SWING,
    frame_periods=(1_000,) * 32,
    positive_drives_black=True,
    initial_grey=0,
    ambient=0,
    power_on=100,
)


def refreshing(**buffers):
    """Four pixels are being driven from black to white, from 100 to 3,100."""
    panel = Panel(SMALL, **buffers)
    panel.send(0, 0x00, [0x3F])
    panel.send(0, 0x04)
    panel.send(100, 0x22, [0x80, 1, 0, 0, 0, 1])
    panel.send(100, 0x13, [0xF0])
    panel.send(100, 0x12)
    return panel


def everything(panel):
    """All that a call may change."""
    buffers = (panel.old, panel.new, panel.states, panel.picture, panel.rows)
    return [bytes(panel.record)] + [bytes(buffer) for buffer in buffers]


LATE = 5_000
CALLS = (
    lambda panel: panel.command(LATE, 0x12),
    lambda panel: panel.data(LATE, 7),
    lambda panel: panel.read(LATE),
    lambda panel: panel.reset(LATE, True),
    lambda panel: panel.reset(LATE, False),
    lambda panel: panel.advance(LATE),
    lambda panel: panel.vcom_rule(LATE, True),
    lambda panel: panel.run(event(LATE, jollanqe.ADVANCE)),
)


class Layout(unittest.TestCase):
    def test_every_field_stands_where_the_header_has_it(self):
        lines = []
        for kind in jollanqe.SIZES:
            name = f"jollanqe_{kind.__name__.lower()}"
            lines.append(f'printf("{kind.__name__} %zu\\n", sizeof({name}));')
            for field, _ in kind._fields_:
                place = f"offsetof({name}, {field}), sizeof((({name} *)0)->{field})"
                lines.append(f'printf("{kind.__name__}.{field} %zu %zu\\n", {place});')
        source = f'#include "{HEADER}"\n#include <stdio.h>\nint main(void) {{ {" ".join(lines)} }}\n'
        with tempfile.TemporaryDirectory() as folder:
            program = Path(folder, "layout")
            subprocess.run(["gcc", "-std=c11", "-x", "c", "-", "-o", program], input=source.encode(), check=True)
            told = subprocess.run([program], capture_output=True, check=True).stdout.decode().splitlines()
        ours = []
        for kind in jollanqe.SIZES:
            ours.append(f"{kind.__name__} {ctypes.sizeof(kind)}")
            for field, _ in kind._fields_:
                at = getattr(kind, field)
                ours.append(f"{kind.__name__}.{field} {at.offset} {at.size}")
        self.assertEqual(ours, told)

    def test_the_sizes_are_those_that_the_header_asserts(self):
        asserted = re.findall(r"JOLLANQE_HOLDS\(sizeof\(jollanqe_(\w+)\) == (\d+)", HEADER.read_text("utf-8"))
        ours = {kind.__name__.lower(): size for kind, size in jollanqe.SIZES.items()}
        self.assertEqual({name: int(size) for name, size in asserted}, ours)

    def imported(self, library):
        """How an import over another library ends."""
        environment = {**os.environ, "JOLLANQE_LIBRARY": str(library), "PYTHONPATH": str(ROOT / "python")}
        command = [sys.executable, "-c", "import jollanqe"]
        return subprocess.run(command, env=environment, capture_output=True).stderr.decode().strip().splitlines()[-1]

    def test_an_import_without_the_library_says_so(self):
        self.assertRegex(self.imported("/nowhere/libjollanqe.so"), "^ImportError: .*nowhere.*tools/shared")
        self.assertRegex(self.imported("libc.so.6"), "^ImportError: .*jollanqe_make")

    def test_an_import_over_a_library_of_another_layout_says_so(self):
        names = " ".join(f"CALL({name})" for name in jollanqe._CALLS)
        source = "#include <string.h>\n#define CALL(f) void *f(void *out) { return memset(out, 255, 1024); }\n" + names
        with tempfile.TemporaryDirectory() as folder:
            library = Path(folder, "libother.so")
            command = ["gcc", "-shared", "-fPIC", "-x", "c", "-", "-o", library]
            subprocess.run(command, input=source.encode(), check=True)
            self.assertRegex(self.imported(library), "^ImportError: .*libother.so is of another version")


class Example(unittest.TestCase):
    def test_the_worked_example(self):
        panel = refreshing()
        self.assertEqual(panel.deadline(), 3_100)
        self.assertEqual([panel.busy(3_099), panel.busy(3_100)], [True, False])
        panel.advance(3_100)
        self.assertIsNone(panel.deadline())
        self.assertEqual(list(panel.picture), [128] * 4 + [0] * 4)
        self.assertEqual([panel.row(0), panel.row(1)], [bytes(panel.picture), b""])
        self.assertEqual(panel.graymap(), b"P5\n8 1\n255\n" + bytes(panel.picture))
        self.assertEqual((panel.image.generation, panel.image.started, panel.image.at), (1, 100, 3_100))
        self.assertEqual([panel.bit("new", 3, 0), panel.bit("new", 4, 0), panel.bit("old", 800, 0)], [True, False, None])
        self.assertEqual((panel.stored, panel.take(), panel.stored, panel.dropped), (1, [(100, 13, 34, 6, 0)], 0, 0))

    def test_a_run_is_its_calls(self):
        one, other = Panel(replace(SMALL, variant=jollanqe.UC8279D)), Panel(replace(SMALL, variant=jollanqe.UC8279D))
        events = [event(0, 1, 0x71), event(0, 3), event(1, 3), event(2, 2, 9), event(3, 4, 1), event(4, 4), event(5, 5)]
        events += [event(6, 6, 2), event(7, 6, 1), event(8, 6, 2)]
        self.assertEqual(one.run(b"".join(events)), [257, 0x13, 256] + [257] * 7)
        other.command(0, 0x71)
        self.assertEqual([other.read(0), other.read(1)], [0x13, None])
        other.data(2, 9)
        other.reset(3, True)
        other.reset(4, False)
        other.advance(5)
        other.vcom_rule(6, True)
        other.vcom_rule(7, False)
        other.vcom_rule(8, True)
        self.assertEqual(everything(one), everything(other))

    def drawn(self, configuration, before=None, under_way=None):
        """The grey of five frames beside VCOM's 0 2 0 2 0 2, each an eighth of a swing where VCOM has 0."""
        panel = Panel(replace(configuration, full_swing=4 * SWING))
        panel.send(0, 0x00, [0x3F])
        panel.send(0, 0x04)
        panel.send(100, 0x20, [0x20, 1, 1, 0, 0, 3])
        panel.command(100, 0x24)
        for byte in [0x80, 5, 0]:
            panel.data(100, byte)
        if before is not None:
            panel.vcom_rule(100, before)
        for byte in [0, 0, 1]:
            panel.data(100, byte)
        panel.send(100, 0x12)
        if under_way is not None:
            panel.vcom_rule(3_000, under_way)
            self.assertEqual(panel.record.vcom_by_frame, under_way)
        panel.advance(8_100)
        self.assertEqual(panel.take(), [(100, 13, 32, 6, 0), (100, 13, 36, 6, 0)])
        return panel.picture[0]

    def test_vcom_by_frame_and_by_phase(self):
        by_frame = replace(SMALL, vcom_by_frame=True)
        self.assertEqual([self.drawn(SMALL), self.drawn(by_frame)], [159, 96])
        self.assertEqual([self.drawn(SMALL, before=True), self.drawn(by_frame, before=False)], [96, 159])
        self.assertEqual([self.drawn(SMALL, under_way=True), self.drawn(by_frame, under_way=False)], [159, 96])

    def test_a_picture_at_a_top(self):
        panel = refreshing()
        panel.advance(3_100)
        for top in (0, 255):
            self.assertEqual(panel.picture_at(top), list(panel.picture))
            self.assertEqual(panel.graymap(top), panel.graymap())
        self.assertEqual(panel.graymap(65_535), b"P5\n8 1\n65535\n" + b"\x80\0" * 4 + bytes(8))
        self.assertEqual(panel.graymap(1), b"P5\n8 1\n1\n" + b"\1" * 4 + bytes(4))
        panel.states[:] = [0, 1, 213, 214, 9_999_999, SWING // 2, SWING - 1, SWING]
        before = everything(panel)
        for top in (1, 2, 254, 255, 256, 4_095, 65_534, 65_535):
            greys = [(2 * state * top + SWING) // (2 * SWING) for state in panel.states]
            self.assertEqual(panel.picture_at(top), greys)
            wide = array.array("H", [7] * 8)
            self.assertIsNone(panel.picture_at(top, wide))
            self.assertEqual(list(wide), greys)
        self.assertEqual(everything(panel), before)

    def test_a_picture_at_a_top_right_after_making(self):
        for swing in (3, SWING, 2**62 + 1, 2**63 - 1):
            panel = Panel(replace(SMALL, full_swing=swing, initial_grey=200))
            self.assertEqual(list(panel.picture), [200] * 8)
            for top in (255, 65_535):
                grey = (2 * panel.states[0] * top + swing) // (2 * swing)
                self.assertEqual(panel.picture_at(top), [grey] * 8)
                self.assertTrue(swing > 3 or grey == {255: 170, 65_535: 43_690}[top])

    def test_threads_take_turns(self):
        panel = Panel(SMALL)
        work = [threading.Thread(target=lambda: [panel.command(0, 0xFF) for _ in range(400)]) for _ in range(5)]
        for one in work:
            one.start()
        for one in work:
            one.join()
        self.assertEqual((panel.stored, panel.dropped), (1_024, 2_000 - 1_024))


def printed(file):
    """What the program `panel` prints for a file, by the library."""
    if not file:
        return "no events\n"
    try:
        if len(file) > 65_536:
            raise Refused(8)
        configuration, events = jollanqe.read_capture(file)
        panel = Panel(configuration)
        if configuration.sources * configuration.gates > 8_000:
            raise Refused(10)
    except Refused as refused:
        return f"refused {refused.number}\n"
    lines = []
    for at, answer in enumerate(panel.run(events)):
        if answer != jollanqe.NO_READ:
            time = int.from_bytes(events[10 * at : 10 * at + 8], "little")
            lines.append(f"read {time} {'none' if answer == jollanqe.NOTHING else answer}")
    image = panel.image
    lines += ["diag " + " ".join(map(str, row)) for row in panel.take()]
    lines.append(f"dropped {panel.dropped}")
    kind = ("poweron", "full", "partial")[image.kind]
    lines.append(
        f"image {image.width} {image.height} {image.generation} {kind} {int(image.interrupted)} {image.started} {image.at}"
    )
    lines += [" ".join(map(str, panel.row(y))) for y in range(image.height)]
    return "\n".join(lines) + "\n"


class Cases(unittest.TestCase):
    def test_every_stored_case(self):
        cases = sorted((ROOT / "oracle" / "cases").glob("*.capture"))
        self.assertGreater(len(cases), 50)
        for case in cases:
            with self.subTest(case.stem):
                self.assertEqual(printed(case.read_bytes()), case.with_suffix(".out").read_text())

    def test_a_capture_is_written_and_read(self):
        changes = {"ambient": -25, "columns_reversed": True, "vcom_by_frame": True}
        configuration = replace(Configuration.x3(jollanqe.UC8279D), **changes)
        events = event(7, 3) + event(2**64 - 1, 4, 1) + event(9, 6, 2)
        file = jollanqe.write_capture(configuration, events)
        self.assertEqual(jollanqe.read_capture(file), (configuration, events))
        for length in range(len(file)):
            with self.assertRaisesRegex(Refused, "refused 8: broken capture"):
                jollanqe.read_capture(file[:length])

    def test_what_is_not_listed_9(self):
        sound = jollanqe.write_capture(SMALL, event(7, 6, 2))
        for at, values in [(8, (0, 7, 255)), (9, (0, 3, 255)), (10, (2, 255)), (11, (16, 128, 255))]:
            for value in values:
                file = sound[:at] + bytes([value]) + sound[at + 1 :]
                with self.assertRaisesRegex(Refused, "refused 9: bad event"):
                    jollanqe.read_capture(file)
        for flags in range(16):
            configuration, _ = jollanqe.read_capture(sound[:11] + bytes([flags]) + sound[12:])
            self.assertEqual(configuration.to_bytes()[1], flags)

    def test_a_capture_with_a_rate(self):
        events = event(7, 3) + event(7, 2, 9)
        for rate in (0, 1, 32_768, 999_999_999, 1_000_000_001, 2**64 - 1):
            configuration = replace(SMALL, rate=rate)
            file = jollanqe.write_capture(configuration, events)
            self.assertEqual(len(file), 20 + 320 + 8)
            self.assertEqual(jollanqe.read_capture(file), (configuration, events))
            for length in range(len(file)):
                with self.assertRaisesRegex(Refused, "refused 8: broken capture"):
                    jollanqe.read_capture(file[:length])
        file = jollanqe.write_capture(SMALL, events)
        self.assertEqual(len(file), 20 + 312 + 8)
        said = file[:-8] + (10**9).to_bytes(8, "little") + file[-8:]
        self.assertEqual(jollanqe.read_capture(said), (SMALL, events))
        with self.assertRaisesRegex(Refused, "refused 8"):
            jollanqe.read_capture(file[:-8] + bytes(4) + file[-8:])


class Refusals(unittest.TestCase):
    def refused(self, number, call):
        with self.assertRaises(Refused) as caught:
            call()
        self.assertEqual((caught.exception.number, caught.exception.word), (number, jollanqe.WORDS[number]))

    def each_refused(self, number, panel):
        before = everything(panel)
        for call in CALLS:
            self.refused(number, lambda: call(panel))
            self.assertEqual(everything(panel), before)

    def test_a_configuration_out_of_range_1_to_4_and_13(self):
        periods = (1_000,) * 31 + (0,)
        for number, change in [
            (1, {"sources": 0}),
            (2, {"sources": 801}),
            (2, {"sources": 65_535, "gates": 65_535}),
            (3, {"full_swing": 0}),
            (3, {"full_swing": 2**63}),
            (4, {"frame_periods": periods}),
            (4, {"frame_periods": periods, "rate": 0}),
            (13, {"rate": 0}),
            (13, {"rate": 1_000_000_001}),
            (13, {"rate": 2**64 - 1}),
        ]:
            self.refused(number, lambda: Panel(replace(SMALL, **change)))

    def test_short_and_long_buffers_5(self):
        lengths = {"old": 60_000, "new": 60_000, "states": 64, "picture": 8, "rows": 40_960}
        for name, length in lengths.items():
            entry = 8 if name in ("states", "rows") else 1
            for wrong in (0, length - entry, length + entry):
                buffer = bytearray(b"\x55" * wrong)
                self.refused(5, lambda: Panel(SMALL, **{name: buffer}))
                self.assertEqual(buffer, b"\x55" * wrong)

    def test_a_record_of_another_size_5(self):
        panel = refreshing()
        record = panel.record
        record.panel.sources = 16
        panel.record = record
        self.each_refused(5, panel)

    def test_a_foreign_record_6(self):
        panel = refreshing()
        size = ctypes.sizeof(jollanqe.Record)
        full = bytearray(b"\xff" * size)
        for at in jollanqe._BOOLS:
            full[at] = 1
        for record in (bytes(size), full):
            panel.record = record
            self.each_refused(6, panel)
            bit, picture = lambda: panel.bit("old", 0, 0), lambda: panel.picture_at(255)
            for question in (panel.take, panel.deadline, lambda: panel.busy(0), bit, picture):
                self.refused(6, question)

    def test_foreign_contents_7(self):
        for wrong in (-1, SWING + 1):
            panel = refreshing()
            panel.states[7] = wrong
            panel.advance(3_099)
            self.each_refused(7, panel)

    def test_a_picture_at_a_top_5_and_7(self):
        panel = refreshing()
        for length in (0, 7, 9):
            wide = array.array("H", [7] * length)
            self.refused(5, lambda: panel.picture_at(65_535, wide))
            self.assertEqual(list(wide), [7] * length)
        for at, wrong in [(0, -1), (7, SWING + 1), (3, -(2**63)), (3, 2**63 - 1)]:
            panel = refreshing()
            panel.states[at] = wrong
            wide = array.array("H", [7] * 8)
            self.refused(7, lambda: panel.picture_at(65_535, wide))
            self.assertEqual(list(wide), [7] * 8)
            self.refused(5, lambda: panel.picture_at(65_535, array.array("H", [7] * 9)))
        panel = refreshing()
        self.assertEqual(panel.picture_at(65_535), [0] * 8)
        record = panel.record
        record.panel.sources = 16
        panel.record = record
        self.refused(5, lambda: panel.picture_at(255))
        self.refused(5, lambda: panel.picture_at(255, array.array("H", [0] * 16)))

    def test_a_run_that_is_refused_in_part(self):
        panel = refreshing()
        panel.states[0] = -1
        with self.assertRaises(Refused) as caught:
            panel.run(event(9_000, 5) + event(300, 5) + event(300, 3))
        self.assertEqual((caught.exception.number, caught.exception.answers), (7, [257, 257, 256]))
        self.assertEqual(panel.now, 300)


class Seen(unittest.TestCase):
    """What the wrapper itself sees: nothing reaches the library."""

    def unchanged(self, error, words, call, panel):
        before = everything(panel)
        self.assertRaisesRegex(error, words, call)
        self.assertEqual(everything(panel), before)

    def test_ragged_events(self):
        panel = refreshing()
        for length in range(1, 30):
            if length % 10:
                self.unchanged(ValueError, "no whole events", lambda: panel.run(bytes(length)), panel)
        self.assertEqual(panel.run(b""), [])
        self.assertRaises(ValueError, jollanqe.write_capture, SMALL, b"123")

    def test_events_that_are_not_listed(self):
        panel = refreshing()
        good = event(LATE, 5)
        for kind, value in [(0, 0), (7, 0), (255, 9), (3, 1), (4, 2), (5, 1), (6, 0), (6, 3)]:
            wrong = good + event(0, kind, value)
            self.unchanged(ValueError, f"event 1: kind {kind} with value {value}", lambda: panel.run(wrong), panel)

    def test_numbers_out_of_range(self):
        panel = refreshing()
        for call in (
            lambda: panel.command(0, 256),
            lambda: panel.command(-1, 0),
            lambda: panel.data(2**64, 0),
            lambda: panel.data(0, -1),
            lambda: panel.send(0, 0x10, [256]),
            lambda: panel.advance(2**64),
            lambda: panel.busy(-1),
            lambda: panel.bit("old", 65_536, 0),
            lambda: panel.bit("older", 0, 0),
            lambda: panel.picture_at(-1),
            lambda: panel.picture_at(65_536),
            lambda: panel.picture_at(255, bytes(16)),
            lambda: panel.picture_at(255, bytearray(15)),
            lambda: panel.picture_at(255, panel.states),
            lambda: Panel(replace(SMALL, sources=-8)),
            lambda: Panel(replace(SMALL, gates=65_536)),
            lambda: Panel(replace(SMALL, ambient=128)),
            lambda: Panel(replace(SMALL, variant=2)),
            lambda: Panel(replace(SMALL, full_swing=2**64)),
            lambda: Panel(replace(SMALL, frame_periods=(1,) * 31)),
        ):
            self.unchanged(ValueError, "", call, panel)
        for call in (
            lambda: panel.command(0.5, 0),
            lambda: panel.data(0, "a"),
            lambda: panel.picture_at("white"),
            lambda: panel.picture_at(255, [0] * 8),
            lambda: panel.vcom_rule(0, 1),
            lambda: panel.vcom_rule(0, 2),
            lambda: panel.send(0, 0x10, 5),
            lambda: panel.run(10),
            lambda: Panel(SMALL, pictures=bytearray(8)),
            lambda: Panel(SMALL, picture=8),
        ):
            self.unchanged(TypeError, "", call, panel)

    def test_buffers_that_cannot_be_lent(self):
        room = bytearray(60_000 * 2)
        twice = memoryview(room)
        for words, buffers in [
            ("overlap", {"old": twice[:60_000], "new": twice[59_999:119_999]}),
            ("overlap", {"old": twice[:60_000], "picture": twice[100:108]}),
            ("read-only", {"picture": bytes(8)}),
            ("one piece", {"picture": memoryview(bytearray(16))[::2]}),
            ("whole entries", {"states": bytearray(63)}),
            ("multiple of 8", {"states": memoryview(bytearray(72))[1:65]}),
        ]:
            self.assertRaisesRegex(ValueError, words, Panel, SMALL, **buffers)

    def test_buffers_that_can_be_lent(self):
        buffers = {
            "old": bytearray(60_000),
            "new": memoryview(bytearray(60_000)),
            "states": array.array("q", bytes(64)),
            "picture": (ctypes.c_uint8 * 8)(),
            "rows": (ctypes.c_uint64 * 5_120)(),
        }
        panel = refreshing(**buffers)
        panel.advance(3_100)
        plain = refreshing()
        plain.advance(3_100)
        self.assertEqual(everything(panel), everything(plain))
        self.assertEqual(list(buffers["picture"]), [128] * 4 + [0] * 4)
        self.assertEqual(buffers["states"][0], SWING // 2)
        self.assertRaises(BufferError, buffers["old"].append, 0)
        self.assertRaises(BufferError, buffers["states"].pop)

    def test_bool_bytes_other_than_0_and_1(self):
        panel = refreshing()
        self.assertEqual(len(jollanqe._BOOLS), 12)
        for at in jollanqe._BOOLS:
            for value in (2, 3, 128, 255):
                data = bytearray(panel.record)
                data[at] = value
                for record in (data, jollanqe.Record.from_buffer_copy(data)):
                    self.unchanged(ValueError, "is a bool", lambda: setattr(panel, "record", record), panel)
        self.unchanged(ValueError, "no record", lambda: setattr(panel, "record", bytes(5)), panel)
        one, other = refreshing(), refreshing()
        one.reset(200, 2)
        other.reset(200, True)
        self.assertEqual(everything(one), everything(other))

    def test_a_record_is_a_copy(self):
        panel = refreshing()
        before = everything(panel)
        record = panel.record
        ctypes.memset(ctypes.byref(record), 0xFF, ctypes.sizeof(record))
        panel.image.generation = 9
        self.assertEqual(everything(panel), before)
        kept = panel.record
        panel.advance(200)
        panel.record = kept
        self.assertEqual(panel.now, 100)


if __name__ == "__main__":
    unittest.main()
