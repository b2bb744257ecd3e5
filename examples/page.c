/*
 * Draws a page on the X3's panel and writes what the glass then shows: page PATH, a graymap.
 *
 *     gcc -std=c11 -Iinclude examples/page.c target/staticlib/libexports.a -o page
 */
#include "jollanqe.h"

#include <stdio.h>
#include <stdlib.h>
#include <string.h>

enum { WIDTH = 792, HEIGHT = 528, PIXELS = WIDTH * HEIGHT, ROW_BYTES = WIDTH / 8, PLANE = ROW_BYTES * HEIGHT };

/* ---- the drawing ---- */

/* Letters of 5 by 7, a byte a row, and how large a dot of them is. */
enum { LETTERS = 8, DOT = 8, LEFT = 360, TOP = 90 };
static const uint8_t word[LETTERS][7] = {
    {0x07, 0x02, 0x02, 0x02, 0x02, 0x12, 0x0C}, /* J */
    {0x0E, 0x11, 0x11, 0x11, 0x11, 0x11, 0x0E}, /* O */
    {0x10, 0x10, 0x10, 0x10, 0x10, 0x10, 0x1F}, /* L */
    {0x10, 0x10, 0x10, 0x10, 0x10, 0x10, 0x1F}, /* L */
    {0x0E, 0x11, 0x11, 0x1F, 0x11, 0x11, 0x11}, /* A */
    {0x11, 0x11, 0x19, 0x15, 0x13, 0x11, 0x11}, /* N */
    {0x0E, 0x11, 0x11, 0x11, 0x15, 0x12, 0x0D}, /* Q */
    {0x1F, 0x10, 0x10, 0x1E, 0x10, 0x10, 0x1F}, /* E */
};

static int least(int a, int b) { return a < b ? a : b; }

/* A band of 6 pixels, 12 from the edge. */
static bool in_frame(int x, int y) {
    int edge = least(least(x, WIDTH - 1 - x), least(y, HEIGHT - 1 - y));
    return edge >= 12 && edge < 18;
}

/* From corner to corner. */
static bool on_diagonal(int x, int y) { return abs(2 * x - 3 * y) <= 6; }

static bool in_word(int x, int y) {
    if (x < LEFT || y < TOP) {
        return false;
    }
    int column = (x - LEFT) / DOT, row = (y - TOP) / DOT, letter = column / 6, dot = column % 6;
    return dot < 5 && row < 7 && letter < LETTERS && word[letter][row] >> (4 - dot) & 1;
}

static bool on_page(int x, int y) { return in_frame(x, y) || on_diagonal(x, y) || in_word(x, y); }

/* A plane as it is sent: 1 is white. The X3's last gate is its top row, so the last row goes first. */
static void draw(uint8_t plane[PLANE], bool (*is_black)(int, int)) {
    memset(plane, 0xFF, PLANE);
    for (int y = 0; y < HEIGHT; y++) {
        for (int x = 0; x < WIDTH; x++) {
            if (is_black(x, y)) {
                plane[ROW_BYTES * (HEIGHT - 1 - y) + x / 8] &= (uint8_t) ~(0x80 >> x % 8);
            }
        }
    }
}

/* ---- the panel ---- */

static uint8_t old_plane[JOLLANQE_PLANE_BYTES], new_plane[JOLLANQE_PLANE_BYTES], picture[PIXELS];
static int64_t states[PIXELS];
static uint64_t rows[JOLLANQE_ROWS_LENGTH];
static const jollanqe_buffers lent = {
    old_plane, JOLLANQE_PLANE_BYTES, new_plane, JOLLANQE_PLANE_BYTES, states, PIXELS, picture, PIXELS,
    rows,      JOLLANQE_ROWS_LENGTH,
};

/* Keeps the record that a call gave back; the program ends where the call was refused. */
static void keep(jollanqe_record *chip, jollanqe_given given) {
    *chip = given.chip;
    if (given.refused) {
        fprintf(stderr, "refused %d: %s\n", given.refused, jollanqe_refusal_word(given.refused));
        exit(1);
    }
}

static void put(uint8_t *at, uint64_t number, int bytes) {
    for (int i = 0; i < bytes; i++) {
        at[i] = (uint8_t)(number >> 8 * i);
    }
}

/* The X3 as docs/FORMAT.md has it: 312 bytes, and a trailer that says that they stand at 0, with no events. */
static jollanqe_record x3(void) {
    uint8_t file[JOLLANQE_CONFIGURATION_BYTES + JOLLANQE_TRAILER_BYTES] = {JOLLANQE_UC8253, 5};
    static const uint64_t times[] = {6000000000000, 127000000, 30000000, 1000000, 50000, 1000000};
    put(file + 2, WIDTH, 2);
    put(file + 4, HEIGHT, 2);
    file[6] = 255; /* white */
    file[7] = 25;  /* degrees Celsius */
    for (int i = 0; i < 6; i++) {
        put(file + 8 + 8 * i, times[i], 8);
    }
    for (unsigned code = 0; code < 32; code++) {
        unsigned hertz = code == 31 ? 200 : 5 * (code + 1);
        put(file + 56 + 8 * code, 1000000000 / hertz, 8);
    }
    jollanqe_record chip;
    keep(&chip, jollanqe_make(file, sizeof file, JOLLANQE_LENT(lent)));
    return chip;
}

/* A command with its data, all at one time, as one run of events. */
static void sends(jollanqe_record *chip, uint64_t at, uint8_t command, const uint8_t *data, size_t count) {
    static uint8_t events[(1 + PLANE) * JOLLANQE_EVENT_BYTES];
    static uint16_t answers[1 + PLANE];
    for (size_t i = 0; i <= count; i++) {
        uint8_t *event = events + JOLLANQE_EVENT_BYTES * i;
        put(event, at, 8);
        event[8] = i == 0 ? JOLLANQE_COMMAND : JOLLANQE_DATA;
        event[9] = i == 0 ? command : data[i - 1];
    }
    size_t length = (1 + count) * JOLLANQE_EVENT_BYTES;
    keep(chip, jollanqe_run(*chip, events, length, answers, 1 + count, JOLLANQE_LENT(lent)));
}

/* The same with the data written out. */
#define SEND(command, ...)                                                                                             \
    sends(&chip, clock, command, (const uint8_t[]){__VA_ARGS__}, sizeof(const uint8_t[]){__VA_ARGS__})

/* A table of one group with one phase: a level's code in the highest two bits, and frames; 36 zeros follow. */
#define TABLE(code, frames) (const uint8_t[42]){code, frames, 0, 0, 0, 1}, 42

/* Waits for the end of what runs. */
static uint64_t ended(jollanqe_record *chip) {
    jollanqe_asked end = jollanqe_deadline(*chip);
    keep(chip, jollanqe_advance(*chip, end.value, JOLLANQE_LENT(lent)));
    return end.value;
}

/* Frame and word turn from white to black; the diagonal is black in both planes, and its table drives it too
   short a time: it stays grey. */
static jollanqe_record drawn(void) {
    static uint8_t plane[PLANE];
    jollanqe_record chip = x3();
    uint64_t clock = 0;
    SEND(0x00, 0x3F);                           /* PSR: tables from the registers */
    SEND(0x01, 0x07, 0x17, 0x3A, 0x3A, 0x03);   /* PWR: 14 V, -14 V */
    SEND(0x61, 0x03, 0x18, 0x02, 0x10);         /* TRES: 792 by 528 */
    SEND(0x50, 0x39, 0x07);                     /* CDI: 1 is white */
    SEND(0x30, 0x09);                           /* PLL: 20 ms a frame */
    sends(&chip, clock, 0x20, TABLE(0x00, 22)); /* VCOM stays at 0 */
    sends(&chip, clock, 0x21, TABLE(0x00, 0));  /* white to white: nothing */
    sends(&chip, clock, 0x22, TABLE(0x80, 22)); /* black to white */
    sends(&chip, clock, 0x23, TABLE(0x40, 22)); /* white to black */
    sends(&chip, clock, 0x24, TABLE(0x40, 9));  /* black to black */
    sends(&chip, clock, 0x04, NULL, 0);         /* PON */
    clock = ended(&chip);
    draw(plane, on_diagonal);
    sends(&chip, clock, 0x10, plane, PLANE);
    draw(plane, on_page);
    sends(&chip, clock, 0x13, plane, PLANE);
    sends(&chip, clock, 0x12, NULL, 0); /* DRF */
    ended(&chip);
    return chip;
}

int main(int count, char **arguments) {
    if (count != 2) {
        fprintf(stderr, "usage: page PATH\n");
        return 2;
    }
    jollanqe_record chip = drawn();
    printf("%d by %d, refresh %llu ended at %llu ns, %d diagnostics\n", chip.image.width, chip.image.height,
           (unsigned long long)chip.image.generation, (unsigned long long)chip.image.at, chip.log.stored);
    FILE *file = fopen(arguments[1], "wb");
    if (file == NULL) {
        perror(arguments[1]);
        return 1;
    }
    fprintf(file, "P5\n%d %d\n255\n", WIDTH, HEIGHT);
    fwrite(picture, 1, PIXELS, file);
    bool failed = ferror(file) != 0;
    if (fclose(file) != 0 || failed) {
        perror(arguments[1]);
        return 1;
    }
    return 0;
}
