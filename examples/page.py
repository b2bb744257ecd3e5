#!/usr/bin/env python3
"""Draws a page on the X3's panel and writes what the glass then shows: page.py PATH, a graymap."""

import sys
from pathlib import Path

sys.path.insert(0, str(Path(__file__).resolve().parent.parent / "python"))
import jollanqe  # noqa: E402

WIDTH, HEIGHT = 792, 528
ROW_BYTES = WIDTH // 8

# letters of 5 by 7, a byte a row, and how large a dot of them is
DOT, LEFT, TOP = 8, 360, 90
LETTERS = {
    "J": (0x07, 0x02, 0x02, 0x02, 0x02, 0x12, 0x0C),
    "O": (0x0E, 0x11, 0x11, 0x11, 0x11, 0x11, 0x0E),
    "L": (0x10, 0x10, 0x10, 0x10, 0x10, 0x10, 0x1F),
    "A": (0x0E, 0x11, 0x11, 0x1F, 0x11, 0x11, 0x11),
    "N": (0x11, 0x11, 0x19, 0x15, 0x13, 0x11, 0x11),
    "Q": (0x0E, 0x11, 0x11, 0x11, 0x15, 0x12, 0x0D),
    "E": (0x1F, 0x10, 0x10, 0x1E, 0x10, 0x10, 0x1F),
}
WORD = [LETTERS[letter] for letter in "JOLLANQE"]


def in_frame(x, y):
    """A band of 6 pixels, 12 from the edge."""
    return 12 <= min(x, y, WIDTH - 1 - x, HEIGHT - 1 - y) < 18


def on_diagonal(x, y):
    """From corner to corner."""
    return abs(2 * x - 3 * y) <= 6


def in_word(x, y):
    letter, dot = divmod((x - LEFT) // DOT, 6)
    row = (y - TOP) // DOT
    return dot < 5 and 0 <= row < 7 and 0 <= letter < len(WORD) and WORD[letter][row] >> (4 - dot) & 1


def plane(is_black):
    """A plane as it is sent: 1 is white. The X3's last gate is its top row, so the last row goes first."""
    data = bytearray(b"\xff" * (ROW_BYTES * HEIGHT))
    for y in range(HEIGHT):
        for x in range(WIDTH):
            if is_black(x, y):
                data[ROW_BYTES * (HEIGHT - 1 - y) + x // 8] &= ~(0x80 >> x % 8)
    return data


def table(code, frames):
    """A table of one group with one phase: a level's code in the highest two bits, and frames."""
    return bytes([code, frames, 0, 0, 0, 1]).ljust(42, b"\0")


def drawn():
    """Frame and word turn from white to black; the diagonal is black in both planes, and its table
    drives it too short a time: it stays grey."""
    panel = jollanqe.Panel(jollanqe.Configuration.x3())
    panel.send(0, 0x00, [0x3F])  # PSR: tables from the registers
    panel.send(0, 0x01, [0x07, 0x17, 0x3A, 0x3A, 0x03])  # PWR: 14 V, -14 V
    panel.send(0, 0x61, [0x03, 0x18, 0x02, 0x10])  # TRES: 792 by 528
    panel.send(0, 0x50, [0x39, 0x07])  # CDI: 1 is white
    panel.send(0, 0x30, [0x09])  # PLL: 20 ms a frame
    panel.send(0, 0x20, table(0x00, 22))  # VCOM stays at 0
    panel.send(0, 0x21, table(0x00, 0))  # white to white: nothing
    panel.send(0, 0x22, table(0x80, 22))  # black to white
    panel.send(0, 0x23, table(0x40, 22))  # white to black
    panel.send(0, 0x24, table(0x40, 9))  # black to black
    panel.send(0, 0x04)  # PON
    panel.advance(panel.deadline())
    panel.send(panel.now, 0x10, plane(on_diagonal))
    panel.send(panel.now, 0x13, plane(lambda x, y: in_frame(x, y) or on_diagonal(x, y) or in_word(x, y)))
    panel.send(panel.now, 0x12)  # DRF
    panel.advance(panel.deadline())
    return panel


def main():
    if len(sys.argv) != 2:
        sys.exit("usage: page.py PATH")
    panel = drawn()
    image = panel.image
    print(
        f"{image.width} by {image.height}, refresh {image.generation} ended at {panel.now} ns,"
        f" {panel.stored} diagnostics"
    )
    Path(sys.argv[1]).write_bytes(panel.graymap())


if __name__ == "__main__":
    main()
