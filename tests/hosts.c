/*
 * What a C host can get wrong, each with its outcome: a line for each, and status 1 at the first that is
 * otherwise. `hosts [N]` tries N damaged records and runs (20,000). tools/check runs it plainly, under
 * the sanitizers and under valgrind; each buffer is a block of its own, of exactly the length that is lent.
 */
#include "jollanqe.h"

#include <stdio.h>
#include <stdlib.h>
#include <string.h>

enum { WIDTH = 16, HEIGHT = 6, PIXELS = WIDTH * HEIGHT, FILE_BYTES = 320, BUFFERS = 5, SWING = 28000000 };

static void must(bool holds, const char *what) {
    if (!holds) {
        printf("NOT SO: %s\n", what);
        exit(1);
    }
}

static void shown(const char *what) { printf("ok: %s\n", what); }

static void *room(size_t count, size_t bytes) {
    void *block = calloc(count ? count : 1, bytes);
    must(block != NULL, "there is memory");
    return block;
}

/* ---- panels ---- */

typedef struct panel {
    jollanqe_record record;
    jollanqe_buffers lent;
} panel;

/* The lengths of the five buffers in the order in which they are lent, and the bytes of an entry. */
static const size_t fitting[BUFFERS] = {JOLLANQE_PLANE_BYTES, JOLLANQE_PLANE_BYTES, PIXELS, PIXELS,
                                        JOLLANQE_ROWS_LENGTH};
static const size_t entry[BUFFERS] = {1, 1, sizeof(int64_t), 1, sizeof(uint64_t)};

static jollanqe_buffers lend(const size_t length[BUFFERS]) {
    void *block[BUFFERS];
    for (int i = 0; i < BUFFERS; i++) {
        block[i] = room(length[i], entry[i]);
    }
    return (jollanqe_buffers){block[0],  length[0], block[1],  length[1], block[2],
                              length[2], block[3],  length[3], block[4],  length[4]};
}

static void give_up(jollanqe_buffers lent) {
    free(lent.old_plane);
    free(lent.new_plane);
    free(lent.states);
    free(lent.picture);
    free(lent.rows);
}

static jollanqe_buffers copied(jollanqe_buffers from) {
    size_t length[BUFFERS] = {from.old_length, from.new_length, from.states_length, from.picture_length,
                              from.rows_length};
    jollanqe_buffers to = lend(length);
    memcpy(to.old_plane, from.old_plane, from.old_length);
    memcpy(to.new_plane, from.new_plane, from.new_length);
    memcpy(to.states, from.states, from.states_length * sizeof *from.states);
    memcpy(to.picture, from.picture, from.picture_length);
    memcpy(to.rows, from.rows, from.rows_length * sizeof *from.rows);
    return to;
}

static bool same_buffers(jollanqe_buffers a, jollanqe_buffers b) {
    return memcmp(a.old_plane, b.old_plane, a.old_length) == 0 && memcmp(a.new_plane, b.new_plane, a.new_length) == 0 &&
           memcmp(a.states, b.states, a.states_length * sizeof *a.states) == 0 &&
           memcmp(a.picture, b.picture, a.picture_length) == 0 &&
           memcmp(a.rows, b.rows, a.rows_length * sizeof *a.rows) == 0;
}

/* The bytes of a record that belong to no field: from, up to. */
#define AT(part) offsetof(jollanqe_record, part)
static const size_t padding[][2] = {
    {AT(panel) + sizeof(jollanqe_geometry), AT(optics)},
    {AT(optics.initial_gray) + 1, AT(timing)},
    {AT(regs.partial) + 1, AT(luts)},
    {AT(luts) + sizeof(jollanqe_luts), AT(waveform)},
    {AT(waveform.tables) + 5 * 7 * sizeof(jollanqe_group), AT(waveform.levels)},
    {AT(waveform.levels) + sizeof(jollanqe_levels), AT(waveform.frame_ns)},
    {AT(waveform.vcom_by_frame) + 1, AT(active)},
    {AT(active.past_reported) + 1, AT(operation)},
    {AT(operation.kind) + 1, AT(image)},
    {AT(image.interrupted) + 1, AT(log)},
    {AT(log.stored) + 2, AT(log.dropped)},
    {AT(vcom_by_frame) + 1, sizeof(jollanqe_record)},
};

static bool same_records(const jollanqe_record *a, const jollanqe_record *b) {
    size_t at = 0;
    for (size_t i = 0; i < sizeof padding / sizeof *padding; i++) {
        if (memcmp((const char *)a + at, (const char *)b + at, padding[i][0] - at) != 0) {
            return false;
        }
        at = padding[i][1];
    }
    return true;
}

static void put(uint8_t *at, uint64_t value, int bytes) {
    for (int i = 0; i < bytes; i++) {
        at[i] = (uint8_t)(value >> (8 * i));
    }
}

/* A configuration of 16 by 6, and the trailer that points back to it. */
static void write_file(uint8_t file[FILE_BYTES], uint8_t variant) {
    memset(file, 0, FILE_BYTES);
    file[0] = variant;
    file[1] = 4;
    put(file + 2, WIDTH, 2);
    put(file + 4, HEIGHT, 2);
    file[6] = 100;
    put(file + 8, SWING, 8);
    for (int time = 0; time < 5; time++) {
        put(file + 16 + 8 * time, 100, 8);
    }
    for (int code = 0; code < 32; code++) {
        put(file + 56 + 8 * code, 1000, 8);
    }
}

/* The same with a rate. */
static void write_rated(uint8_t file[FILE_BYTES + 8], uint64_t rate) {
    write_file(file, 0);
    memset(file + FILE_BYTES, 0, 8);
    put(file + FILE_BYTES - 8, rate, 8);
}

static panel made(uint8_t variant) {
    uint8_t file[FILE_BYTES];
    write_file(file, variant);
    jollanqe_buffers lent = lend(fitting);
    jollanqe_given given = jollanqe_make(file, sizeof file, JOLLANQE_LENT(lent));
    must(given.refused == 0, "the panel is made");
    return (panel){given.chip, lent};
}

static void keep(panel *p, jollanqe_given given) {
    must(given.refused == 0, "the call is taken");
    p->record = given.chip;
}

static void sent(panel *p, uint8_t command, const uint8_t *data, size_t count) {
    keep(p, jollanqe_command(p->record, 100, command, JOLLANQE_LENT(p->lent)));
    for (size_t i = 0; i < count; i++) {
        keep(p, jollanqe_data(p->record, 100, data[i], JOLLANQE_LENT(p->lent)));
    }
}

/* Powered at 100, with a table, pixels, and a refresh that runs from 100 to 3,100. */
static panel refreshing(void) {
    static const uint8_t tables[] = {0x3F}, black_to_white[] = {0x80, 1, 0, 0, 0, 1}, area[] = {0, WIDTH, 0, HEIGHT};
    static const uint8_t pixels[] = {0xF0, 0x0F, 0xAA, 0x55};
    panel p = made(0);
    sent(&p, 0x00, tables, sizeof tables);
    sent(&p, 0x04, NULL, 0);
    keep(&p, jollanqe_advance(p.record, 200, JOLLANQE_LENT(p.lent)));
    sent(&p, 0x61, area, sizeof area);
    sent(&p, 0x22, black_to_white, sizeof black_to_white);
    sent(&p, 0x13, pixels, sizeof pixels);
    sent(&p, 0x12, NULL, 0);
    must(p.record.operation.work == JOLLANQE_REFRESH && p.record.operation.until == 3200, "a refresh runs to 3,200");
    return p;
}

/* ---- calls by number ---- */

enum { CALLS = 8, RUN = 7 };
static const char *const call_names[CALLS] = {"command", "data", "read", "assert", "release", "advance", "rule", "run"};

/* One of the calls that are lent the five buffers; an assert, and any at a late time, ends a refresh. */
static jollanqe_given call(int which, jollanqe_record record, uint64_t at, uint8_t byte, jollanqe_buffers lent) {
    uint8_t event[JOLLANQE_EVENT_BYTES];
    uint16_t answer = 0;
    switch (which) {
    case 0:
        return jollanqe_command(record, at, byte, JOLLANQE_LENT(lent));
    case 1:
        return jollanqe_data(record, at, byte, JOLLANQE_LENT(lent));
    case 2:
        return jollanqe_read(record, at, JOLLANQE_LENT(lent));
    case 3:
        return jollanqe_reset(record, at, true, JOLLANQE_LENT(lent));
    case 4:
        return jollanqe_reset(record, at, false, JOLLANQE_LENT(lent));
    case 5:
        return jollanqe_advance(record, at, JOLLANQE_LENT(lent));
    case 6:
        return jollanqe_vcom_rule(record, at, byte % 2 == 0, JOLLANQE_LENT(lent));
    default:
        put(event, at, 8);
        event[8] = JOLLANQE_COMMAND;
        event[9] = byte;
        return jollanqe_run(record, event, sizeof event, &answer, 1, JOLLANQE_LENT(lent));
    }
}

/* Every call is refused by this number, gives back the record that it was handed and changes nothing. */
static void refused_by(uint8_t number, jollanqe_record record, jollanqe_buffers lent, uint64_t at) {
    jollanqe_buffers before = copied(lent);
    for (int which = 0; which < CALLS; which++) {
        jollanqe_given given = call(which, record, at, 0x12, lent);
        must(given.refused == number, call_names[which]);
        must(same_records(&given.chip, &record), "a refused call gives back the record that it was handed");
        must(same_buffers(before, lent), "a refused call changes no lent entry");
        must(given.answer == (which == 2 ? JOLLANQE_NOTHING : JOLLANQE_NO_READ), "what a refused call answers");
    }
    give_up(before);
}

/* The questions and the taking of the rows are refused by this number. */
static void asked_by(uint8_t number, jollanqe_record record, jollanqe_buffers lent) {
    jollanqe_given taken = jollanqe_take(record, lent.rows, lent.rows_length);
    must(taken.refused == number && taken.answer == 0 && same_records(&taken.chip, &record), "a refused taking");
    uint16_t *wide = room(PIXELS, sizeof *wide);
    jollanqe_asked asked[] = {jollanqe_busy(record, 150), jollanqe_deadline(record),
                              jollanqe_bit(record, lent.old_plane, lent.old_length, 0, 0),
                              jollanqe_picture(record, lent.states, lent.states_length, wide, PIXELS, 65535)};
    for (int i = 0; i < 4; i++) {
        must(asked[i].refused == number && !asked[i].known && asked[i].value == 0, "a refused question");
    }
    for (size_t i = 0; i < PIXELS; i++) {
        must(wide[i] == 0, "a refused picture changes no entry");
    }
    free(wide);
}

/* ---- what is refused ---- */

static void configurations(void) {
    static const struct {
        uint8_t number;
        size_t at;
        uint64_t value;
        int bytes;
    } faults[] = {
        {JOLLANQE_EMPTY_PANEL, 2, 0, 2},
        {JOLLANQE_EMPTY_PANEL, 4, 0, 2},
        {JOLLANQE_OVERSIZED_PANEL, 2, 801, 2},
        {JOLLANQE_OVERSIZED_PANEL, 4, 601, 2},
        {JOLLANQE_SWING, 8, 0, 8},
        {JOLLANQE_SWING, 8, UINT64_MAX / 2 + 1, 8},
        {JOLLANQE_FRAME_PERIOD, 56, 0, 8},
        {JOLLANQE_FRAME_PERIOD, 304, 0, 8},
    };
    static const jollanqe_record zeros;
    jollanqe_buffers lent = lend(fitting), before = copied(lent);
    for (size_t i = 0; i < sizeof faults / sizeof *faults; i++) {
        uint8_t file[FILE_BYTES];
        write_file(file, 0);
        put(file + faults[i].at, faults[i].value, faults[i].bytes);
        jollanqe_given given = jollanqe_make(file, sizeof file, JOLLANQE_LENT(lent));
        must(given.refused == faults[i].number && same_records(&given.chip, &zeros), "making is refused, zeros");
    }
    static const uint64_t rates[] = {0, 1000000001, UINT64_MAX};
    for (size_t i = 0; i < sizeof rates / sizeof *rates; i++) {
        uint8_t file[FILE_BYTES + 8];
        write_rated(file, rates[i]);
        jollanqe_given given = jollanqe_make(file, sizeof file, JOLLANQE_LENT(lent));
        must(given.refused == JOLLANQE_CLOCK_RATE && same_records(&given.chip, &zeros), "making is refused, zeros");
        put(file + 304, 0, 8);
        must(jollanqe_make(file, sizeof file, JOLLANQE_LENT(lent)).refused == JOLLANQE_FRAME_PERIOD, "4 before 13");
    }
    uint8_t nothing = 0;
    must(jollanqe_make(&nothing, 0, JOLLANQE_LENT(lent)).refused == JOLLANQE_EMPTY_PANEL, "an empty file");
    must(same_buffers(before, lent), "a refused making changes nothing");
    give_up(lent);
    give_up(before);
    shown("a configuration out of range, an empty file: making is refused by 1, 2, 3, 4 or 13, a record of zeros");
}

static void rates(void) {
    static const uint64_t taken[] = {1, 32768, 1000000000};
    for (size_t i = 0; i < sizeof taken / sizeof *taken; i++) {
        uint8_t file[FILE_BYTES + 8];
        write_rated(file, taken[i]);
        jollanqe_buffers lent = lend(fitting);
        jollanqe_given given = jollanqe_make(file, sizeof file, JOLLANQE_LENT(lent));
        must(given.refused == 0 && given.chip.timing.rate == taken[i], "the record has the rate of the file");
        given.chip.timing.rate = 0;
        must(jollanqe_busy(given.chip, 0).refused == JOLLANQE_FOREIGN_RECORD, "a record with a rate of 0 is foreign");
        give_up(lent);
    }
    panel p = made(0);
    must(p.record.timing.rate == 1000000000, "312 bytes mean 1 GHz");
    give_up(p.lent);
    shown("a rate behind the configuration: in the record; without one 1 GHz; a record with a rate of 0: refused by 6");
}

static void lengths(void) {
    panel p = refreshing();
    uint8_t file[FILE_BYTES];
    write_file(file, 0);
    for (int which = 0; which < BUFFERS; which++) {
        size_t wrong[] = {0, fitting[which] - 1, fitting[which] + 1};
        for (int i = 0; i < 3; i++) {
            size_t length[BUFFERS];
            memcpy(length, fitting, sizeof length);
            length[which] = wrong[i];
            jollanqe_buffers lent = lend(length);
            must(jollanqe_make(file, sizeof file, JOLLANQE_LENT(lent)).refused == JOLLANQE_BUFFER_LENGTH, "making");
            refused_by(JOLLANQE_BUFFER_LENGTH, p.record, lent, 5000);
            jollanqe_given taken = jollanqe_take(p.record, lent.rows, lent.rows_length);
            must(taken.refused == (which == 4 ? JOLLANQE_BUFFER_LENGTH : 0), "a taking tests the rows alone");
            jollanqe_asked bit = jollanqe_bit(p.record, lent.new_plane, lent.new_length, 0, 0);
            must(bit.refused == (which == 1 ? JOLLANQE_BUFFER_LENGTH : 0), "a bit tests its plane alone");
            give_up(lent);
        }
    }
    give_up(p.lent);
    shown("a buffer of length 0, one short or one long: refused by 5, record and buffers as they were");
}

static void foreign_records(void) {
    static const jollanqe_record zeros;
    panel p = refreshing();
    jollanqe_record full;
    memset(&full, 0xFF, sizeof full);
    must(!jollanqe_bools_hold(&full), "bools of FF are seen");
    full.panel.rows_reversed = full.panel.columns_reversed = full.optics.positive_drives_black = true;
    full.regs.partial = full.active.extra_reported = full.active.past_reported = full.image.interrupted = true;
    full.powered = full.data_flag = full.made_by_frame = full.vcom_by_frame = full.waveform.vcom_by_frame = true;
    must(jollanqe_bools_hold(&full), "bools of 1 hold");
    refused_by(JOLLANQE_FOREIGN_RECORD, zeros, p.lent, 5000);
    asked_by(JOLLANQE_FOREIGN_RECORD, zeros, p.lent);
    refused_by(JOLLANQE_FOREIGN_RECORD, full, p.lent, 5000);
    asked_by(JOLLANQE_FOREIGN_RECORD, full, p.lent);
    jollanqe_record wide = p.record;
    wide.panel.sources = WIDTH * 2;
    refused_by(JOLLANQE_BUFFER_LENGTH, wide, p.lent, 5000);
    give_up(p.lent);
    shown("a record of zeros, of FF with bools of 1: refused by 6; of another size: by 5; nothing changed");
}

static void foreign_contents(void) {
    static const int64_t states[] = {-1, SWING + 1, INT64_MIN, INT64_MAX};
    panel p = refreshing();
    for (int i = 0; i < 4; i++) {
        jollanqe_buffers lent = copied(p.lent);
        lent.states[i % 2 ? 0 : PIXELS - 1] = states[i];
        refused_by(JOLLANQE_FOREIGN_CONTENTS, p.record, lent, 3200);
        must(call(5, p.record, 3199, 0, lent).refused == 0, "a call that ends no refresh is taken");
        give_up(lent);
    }
    give_up(p.lent);
    shown("a state out of range: the call that ends the refresh is refused by 7, no other");
}

/* ---- pictures at tops ---- */

enum { UNTOUCHED = 0xABCD };

/* Asks for a picture of so many entries by this number; a refused one changes none of them. */
static uint16_t *pictured(uint8_t number, panel p, size_t length, uint16_t top) {
    uint16_t *wide = room(length, sizeof *wide);
    for (size_t i = 0; i < length; i++) {
        wide[i] = UNTOUCHED;
    }
    jollanqe_buffers before = copied(p.lent);
    jollanqe_asked asked = jollanqe_picture(p.record, p.lent.states, p.lent.states_length, wide, length, top);
    must(asked.refused == number && asked.known == (number == 0) && asked.value == 0, "a picture at a top");
    for (size_t i = 0; number != 0 && i < length; i++) {
        must(wide[i] == UNTOUCHED, "a refused picture changes no entry");
    }
    must(same_buffers(before, p.lent), "a picture changes no other buffer");
    give_up(before);
    return wide;
}

static void pictures_refused(void) {
    static const int64_t foreign[] = {-1, SWING + 1, INT64_MIN, INT64_MAX};
    static const size_t wrong[] = {0, PIXELS - 1, PIXELS + 1};
    static const jollanqe_record zeros;
    panel p = refreshing();
    for (int i = 0; i < 3; i++) {
        size_t length[BUFFERS];
        memcpy(length, fitting, sizeof length);
        length[2] = wrong[i];
        panel other = {p.record, lend(length)};
        free(pictured(JOLLANQE_BUFFER_LENGTH, p, wrong[i], 255));
        free(pictured(JOLLANQE_BUFFER_LENGTH, other, PIXELS, 255));
        other.record = zeros;
        free(pictured(JOLLANQE_FOREIGN_RECORD, other, wrong[i], 255));
        give_up(other.lent);
    }
    for (int i = 0; i < 4; i++) {
        int64_t *state = p.lent.states + (i % 2 ? 0 : PIXELS - 1), kept = *state;
        *state = foreign[i];
        free(pictured(JOLLANQE_FOREIGN_CONTENTS, p, PIXELS, 65535));
        free(pictured(JOLLANQE_BUFFER_LENGTH, p, PIXELS + 1, 65535));
        *state = kept;
    }
    free(pictured(0, p, PIXELS, 65535));
    give_up(p.lent);
    shown("a picture at a top: refused by 6, 5 for either length, 7 for a state alone, no entry changed");
}

/* The greys are those of the states, and those of the picture at 255 once a refresh has ended. */
static void pictures_drawn(void) {
    static const uint16_t tops[] = {1, 2, 255, 256, 40000, 65535};
    panel p = refreshing();
    keep(&p, jollanqe_advance(p.record, 3200, JOLLANQE_LENT(p.lent)));
    uint16_t *at_0 = pictured(0, p, PIXELS, 0), *at_255 = pictured(0, p, PIXELS, 255);
    for (size_t i = 0; i < PIXELS; i++) {
        must(at_0[i] == p.lent.picture[i] && at_255[i] == at_0[i], "at 255, and at 0, it is the picture");
        p.lent.states[i] = (int64_t)(i * SWING / (PIXELS - 1)) - (int64_t)(i % 2);
    }
    free(at_0);
    free(at_255);
    p.lent.states[0] = 0;
    for (size_t i = 0; i < sizeof tops / sizeof *tops; i++) {
        uint16_t *wide = pictured(0, p, PIXELS, tops[i]);
        for (size_t j = 0; j < PIXELS; j++) {
            uint64_t doubled = 2 * (uint64_t)p.lent.states[j] * tops[i];
            must(wide[j] == (doubled + SWING) / (2 * SWING), "state x top / swing, halves up");
        }
        free(wide);
    }
    give_up(p.lent);
    shown("a picture at a top: the greys of the states; at 255 and at 0 those of the picture after a refresh");
}

/* Right after making the picture is the initial grey: 200 is state 2 of a swing of 3, whose grey is 170. */
static void pictures_at_making(void) {
    uint8_t file[FILE_BYTES];
    write_file(file, 0);
    file[6] = 200;
    put(file + 8, 3, 8);
    jollanqe_buffers lent = lend(fitting);
    panel p = {jollanqe_make(file, sizeof file, JOLLANQE_LENT(lent)).chip, lent};
    uint16_t *wide = pictured(0, p, PIXELS, 255), *wider = pictured(0, p, PIXELS, 65535);
    must(lent.states[0] == 2 && lent.picture[0] == 200 && wide[0] == 170 && wider[0] == 43690, "two thirds");
    free(wide);
    free(wider);
    give_up(lent);
    shown("a picture at a top before any refresh: of the states, where the 8-bit picture is the initial grey");
}

/* ---- runs ---- */

static void ragged_events(void) {
    panel p = refreshing();
    for (size_t length = 0; length < 40; length++) {
        jollanqe_buffers one = copied(p.lent), other = copied(p.lent);
        uint8_t *events = room(length, 1); /* a block of exactly this length */
        for (size_t i = 0; i < length; i++) {
            events[i] = (uint8_t)(i % 10 == 0 ? 150 + i : i % 10 == 8 ? JOLLANQE_COMMAND : i % 10 == 9 ? 0x71 : 0);
        }
        uint16_t a[4] = {7, 7, 7, 7}, b[4] = {7, 7, 7, 7};
        size_t whole = length / 10;
        jollanqe_given ragged = jollanqe_run(p.record, events, length, a, 4, JOLLANQE_LENT(one));
        jollanqe_given even = jollanqe_run(p.record, events, whole * 10, b, 4, JOLLANQE_LENT(other));
        must(ragged.refused == 0 && same_records(&ragged.chip, &even.chip) && same_buffers(one, other), "ragged");
        must(memcmp(a, b, sizeof a) == 0 && (whole == 4 || a[whole] == 7), "an answer for each whole event");
        must(whole > 0 || same_records(&ragged.chip, &p.record), "under ten bytes nothing happens");
        free(events);
        give_up(one);
        give_up(other);
    }
    give_up(p.lent);
    shown("ragged events: the whole ones run, the bytes after the last are passed over");
}

static void unlisted_kinds(void) {
    panel p = refreshing();
    jollanqe_buffers before = copied(p.lent);
    for (int kind = 0; kind < 256; kind++) {
        if (kind >= JOLLANQE_COMMAND && kind <= JOLLANQE_VCOM_RULE) {
            continue;
        }
        uint8_t event[JOLLANQE_EVENT_BYTES] = {0, 0, 0, 0, 0, 0, 0, 1, (uint8_t)kind, 0x12};
        uint16_t answer = 0;
        jollanqe_given given = jollanqe_run(p.record, event, sizeof event, &answer, 1, JOLLANQE_LENT(p.lent));
        must(given.refused == 0 && answer == JOLLANQE_NO_READ, "a kind that is not listed answers 257");
        must(same_records(&given.chip, &p.record) && same_buffers(before, p.lent), "and does nothing");
    }
    for (int value = 0; value < 256; value++) {
        jollanqe_buffers one = copied(p.lent), other = copied(p.lent);
        uint8_t event[JOLLANQE_EVENT_BYTES] = {150, 0, 0, 0, 0, 0, 0, 0, JOLLANQE_RESET, (uint8_t)value};
        uint16_t answer = 0;
        jollanqe_given given = jollanqe_run(p.record, event, sizeof event, &answer, 1, JOLLANQE_LENT(one));
        jollanqe_given alone = jollanqe_reset(p.record, 150, value == 1, JOLLANQE_LENT(other));
        must(same_records(&given.chip, &alone.chip) && same_buffers(one, other), "kind 4 asserts by 1 alone");
        event[8] = JOLLANQE_VCOM_RULE;
        given = jollanqe_run(p.record, event, sizeof event, &answer, 1, JOLLANQE_LENT(one));
        alone = jollanqe_vcom_rule(p.record, 150, value == 2, JOLLANQE_LENT(other));
        must(same_records(&given.chip, &alone.chip) && same_buffers(one, other), "kind 6 sets rule 2 by 2 alone");
        give_up(one);
        give_up(other);
    }
    give_up(before);
    give_up(p.lent);
    shown("a kind that is not listed does nothing, its time neither; kind 4 asserts by 1 alone, kind 6: rule 2 by 2");
}

static void answers(void) {
    panel p = made(JOLLANQE_UC8279D);
    uint8_t events[4 * JOLLANQE_EVENT_BYTES] = {0};
    static const uint8_t kinds[] = {JOLLANQE_COMMAND, JOLLANQE_READ, JOLLANQE_READ, JOLLANQE_ADVANCE};
    static const uint8_t values[] = {0x71, 0, 9, 9};
    for (int i = 0; i < 4; i++) {
        events[10 * i + 8] = kinds[i];
        events[10 * i + 9] = values[i];
    }
    static const uint16_t all[] = {JOLLANQE_NO_READ, 0x13, JOLLANQE_NOTHING, JOLLANQE_NO_READ};
    for (size_t length = 0; length <= 6; length++) {
        uint16_t *given = room(length, sizeof *given); /* a block of exactly this length */
        jollanqe_buffers lent = copied(p.lent);
        must(jollanqe_run(p.record, events, sizeof events, given, length, JOLLANQE_LENT(lent)).refused == 0, "a run");
        for (size_t i = 0; i < length; i++) {
            must(given[i] == (i < 4 ? all[i] : 0), "answers, as many as there is room for");
        }
        give_up(lent);
        free(given);
    }
    give_up(p.lent);
    shown("too few or too many answers: as many as there is room for, the entries past the last event stay");
}

static void refused_in_part(void) {
    panel p = refreshing();
    p.lent.states[3] = -1;
    uint8_t events[2 * JOLLANQE_EVENT_BYTES] = {0};
    put(events, 9000, 8);
    events[8] = JOLLANQE_ADVANCE;
    put(events + 10, 300, 8);
    events[18] = JOLLANQE_ADVANCE;
    uint16_t answer[2];
    jollanqe_given given = jollanqe_run(p.record, events, sizeof events, answer, 2, JOLLANQE_LENT(p.lent));
    must(given.refused == JOLLANQE_FOREIGN_CONTENTS && given.chip.now == 300, "the run went on");
    give_up(p.lent);
    shown("a run that is refused by 7 in part goes on, and its record has to be kept");
}

/* ---- bools, numbers of enums, times ---- */

enum { BOOLS = 12 };

static void bool_places(jollanqe_record *record, void *places[BOOLS]) {
    void *const all[BOOLS] = {&record->panel.rows_reversed,
                              &record->panel.columns_reversed,
                              &record->optics.positive_drives_black,
                              &record->regs.partial,
                              &record->waveform.vcom_by_frame,
                              &record->active.extra_reported,
                              &record->active.past_reported,
                              &record->image.interrupted,
                              &record->powered,
                              &record->data_flag,
                              &record->made_by_frame,
                              &record->vcom_by_frame};
    memcpy(places, all, sizeof all);
}

static void bools(void) {
    panel p = refreshing();
    void *places[BOOLS];
    bool_places(&p.record, places);
    for (int i = 0; i < BOOLS; i++) {
        unsigned char *place = places[i], kept = *place;
        for (int value = 0; value < 256; value++) {
            *place = (unsigned char)value;
            must(jollanqe_bools_hold(&p.record) == (value < 2), "a bool byte other than 0 and 1 is seen");
        }
        *place = kept;
    }
    give_up(p.lent);
    shown("a bool byte other than 0 and 1 is undefined; jollanqe_bools_hold sees each in a record");
}

static void enum_numbers(void) {
    panel p = made(0);
    jollanqe_record odd = p.record, last = p.record;
    odd.power = 200;
    last.power = JOLLANQE_IN_RESET;
    odd.variant = 77;
    last.variant = JOLLANQE_UC8279D;
    jollanqe_given one = call(0, odd, 10, 0x70, p.lent), other = call(0, last, 10, 0x70, p.lent);
    must(one.refused == 0 && same_records(&one.chip, &other.chip), "a number past the last stands for the last");
    must(one.chip.power == JOLLANQE_IN_RESET && one.chip.variant == JOLLANQE_UC8279D, "and comes back as the last");
    give_up(p.lent);
    shown("a number past an enum's last case stands for the last");
}

/* VCOM has 0 2 0 2 0 2 beside five frames of a pixel, each a quarter of a swing; by phase it has 0 in all five. */
static uint8_t drawn(bool made_by_frame, int changed_before, int changed_under_way) {
    static const uint8_t tables[] = {0x3F}, vcom[] = {0x20, 1, 1, 0, 0, 3}, black[] = {0x80, 5, 0, 0, 0, 1};
    uint8_t file[FILE_BYTES];
    write_file(file, 0);
    file[1] |= made_by_frame ? 8 : 0;
    file[6] = 0;
    put(file + 8, 2 * SWING, 8);
    jollanqe_buffers lent = lend(fitting);
    panel p = {jollanqe_make(file, sizeof file, JOLLANQE_LENT(lent)).chip, lent};
    must(p.record.made_by_frame == made_by_frame && p.record.vcom_by_frame == made_by_frame, "the rule at making");
    sent(&p, 0x00, tables, sizeof tables);
    sent(&p, 0x04, NULL, 0);
    keep(&p, jollanqe_advance(p.record, 200, JOLLANQE_LENT(p.lent)));
    sent(&p, 0x20, vcom, sizeof vcom);
    sent(&p, 0x24, black, sizeof black);
    if (changed_before) {
        keep(&p, jollanqe_vcom_rule(p.record, 200, changed_before == 2, JOLLANQE_LENT(p.lent)));
        must(p.record.vcom_by_frame == (changed_before == 2), "the rule in force");
        must(p.record.made_by_frame == made_by_frame && p.record.current == JOLLANQE_ACTIVE, "and nothing else");
    }
    sent(&p, 0x12, NULL, 0);
    bool begun = p.record.waveform.vcom_by_frame;
    must(begun == p.record.vcom_by_frame && p.record.operation.until == 8200, "the refresh notes its rule");
    if (changed_under_way) {
        keep(&p, jollanqe_vcom_rule(p.record, 3000, changed_under_way == 2, JOLLANQE_LENT(p.lent)));
        must(p.record.waveform.vcom_by_frame == begun && p.record.now == 3000, "and keeps it");
    }
    keep(&p, jollanqe_advance(p.record, 8200, JOLLANQE_LENT(p.lent)));
    uint8_t grey = p.lent.picture[0];
    bool rule = p.record.vcom_by_frame;
    keep(&p, jollanqe_reset(p.record, 9000, true, JOLLANQE_LENT(p.lent)));
    keep(&p, jollanqe_reset(p.record, 9001, false, JOLLANQE_LENT(p.lent)));
    must(p.record.vcom_by_frame == rule, "a reset keeps the rule");
    give_up(p.lent);
    return grey;
}

static void vcom_rules(void) {
    must(drawn(false, 0, 0) == 255 && drawn(true, 0, 0) == 191, "the rule of the configuration");
    must(drawn(false, 2, 0) == 191 && drawn(true, 1, 0) == 255, "the rule of the call");
    must(drawn(false, 0, 2) == 255 && drawn(true, 0, 1) == 191, "a refresh under way ends by its own");
    shown("VCOM by frame or by phase: from making on, by a call, and not while a refresh runs; resets keep it");
}

static void times(void) {
    panel p = refreshing();
    keep(&p, call(5, p.record, 0, 0, p.lent));
    must(p.record.now == 200, "a time before the clock happens at the clock");
    keep(&p, call(5, p.record, UINT64_MAX, 0, p.lent));
    must(p.record.now == UINT64_MAX && p.record.image.generation == 1, "the last time ends what runs");
    keep(&p, call(5, p.record, 0, 0, p.lent));
    must(p.record.now == UINT64_MAX, "the clock stays");
    give_up(p.lent);
    shown("times that go back, and 2^64 - 1: taken");
}

/* ---- anything ---- */

static uint64_t seed = 1;

static uint32_t any(uint32_t below) {
    seed = seed * 6364136223846793005u + 1442695040888963407u;
    return (uint32_t)(seed >> 33) % below;
}

/* So many bytes of a record become any; the bools stay 0 or 1. */
static void damage(jollanqe_record *record, uint32_t count) {
    unsigned char *bytes = (unsigned char *)record;
    for (uint32_t i = 0; i < count; i++) {
        bytes[any(sizeof *record)] = (unsigned char)any(256);
    }
    void *places[BOOLS];
    bool_places(record, places);
    for (int i = 0; i < BOOLS; i++) {
        *(unsigned char *)places[i] &= 1;
    }
}

/* Records of random bytes are all refused by 6. */
static void random_records(uint32_t count) {
    panel p = refreshing();
    jollanqe_buffers before = copied(p.lent);
    for (uint32_t i = 0; i < count; i++) {
        jollanqe_record record = p.record;
        damage(&record, 8 * sizeof record);
        jollanqe_given given = call((int)any(CALLS), record, any(5000), (uint8_t)any(256), p.lent);
        must(given.refused == JOLLANQE_FOREIGN_RECORD, "a record of random bytes");
        must(same_records(&given.chip, &record), "given back as it was handed in");
    }
    must(same_buffers(before, p.lent), "nothing changed");
    give_up(before);
    give_up(p.lent);
    printf("ok: %u records of random bytes, bools 0 or 1: each refused by 6, nothing changed\n", count);
}

/*
 * A good record with some bytes changed is taken, or refused with nothing changed. (A run that is refused by
 * 7 may give an enum's number past the last back as the last: the same record by other numbers.)
 */
static void damaged_records(uint32_t count) {
    panel p = refreshing();
    uint32_t outcomes[JOLLANQE_TOO_MANY_PIXELS + 1] = {0};
    for (uint32_t i = 0; i < count; i++) {
        jollanqe_record record = p.record;
        damage(&record, 1 + any(4));
        jollanqe_buffers lent = copied(p.lent);
        lent.states[any(PIXELS)] -= any(8) == 0 ? SWING : 0;
        jollanqe_buffers before = copied(lent);
        int which = (int)any(CALLS);
        jollanqe_given given = call(which, record, any(5000), (uint8_t)any(256), lent);
        must(given.refused <= JOLLANQE_FOREIGN_CONTENTS, "a number of the table");
        outcomes[given.refused]++;
        bool renumbered = which == RUN && given.refused == JOLLANQE_FOREIGN_CONTENTS;
        must(given.refused == 0 || renumbered || same_records(&given.chip, &record), "refused: the record as it was");
        must(given.refused == 0 || same_buffers(before, lent), "refused: nothing changed");
        give_up(before);
        give_up(lent);
    }
    must(outcomes[0] && outcomes[5] && outcomes[6] && outcomes[7], "each outcome occurs");
    give_up(p.lent);
    printf("ok: %u damaged records: %u taken, %u refused by 5, %u by 6, %u by 7\n", count, outcomes[0], outcomes[5],
           outcomes[6], outcomes[7]);
}

/* Most often what a driver might send soon; now and then any ten bytes. */
static void any_event(uint8_t event[JOLLANQE_EVENT_BYTES], uint64_t now) {
    static const uint8_t usual[] = {0x00, 0x04, 0x10, 0x12, 0x12, 0x13, 0x22, 0x23, 0x50, 0x61, 0x90, 0x91, 0x92};
    for (int i = 0; i < JOLLANQE_EVENT_BYTES; i++) {
        event[i] = (uint8_t)any(256);
    }
    if (any(1000) != 0) {
        put(event, now + any(500), 8);
        event[8] = (uint8_t)(any(50) ? 1 + any(any(20) ? 3 : 6) : any(256));
        event[9] = event[8] == JOLLANQE_COMMAND ? usual[any(sizeof usual)] : any(2) ? 0x3F : event[9];
    }
}

/* Runs of any events and any lengths: all are taken. */
static void any_events(uint32_t count) {
    panel p = refreshing();
    uint64_t refreshes = 0;
    for (uint32_t i = 0; i < count; i++) {
        size_t length = any(200), room_for = any(30);
        uint8_t *events = room(length, 1), event[JOLLANQE_EVENT_BYTES];
        uint16_t *given = room(room_for, sizeof *given);
        for (size_t at = 0; at < length; at++) {
            if (at % JOLLANQE_EVENT_BYTES == 0) {
                any_event(event, p.record.now);
            }
            events[at] = event[at % JOLLANQE_EVENT_BYTES];
        }
        keep(&p, jollanqe_run(p.record, events, length, given, room_for, JOLLANQE_LENT(p.lent)));
        must(jollanqe_bools_hold(&p.record), "bools come back as 0 or 1");
        free(events);
        free(given);
        if (p.record.now > UINT64_MAX / 2) { /* a new panel, so that time can pass */
            refreshes += p.record.image.generation;
            give_up(p.lent);
            p = refreshing();
        }
    }
    refreshes += p.record.image.generation;
    give_up(p.lent);
    must(refreshes > count / 1000, "pictures are drawn");
    printf("ok: %u runs of any events: all taken, pictures drawn: %llu\n", count, (unsigned long long)refreshes);
}

static void words(void) {
    must(strcmp(jollanqe_refusal_word(5), "buffer length") == 0, "5");
    must(strcmp(jollanqe_refusal_word(10), "too many pixels") == 0, "10");
    must(strcmp(jollanqe_refusal_word(12), "signals") == 0, "12");
    must(strcmp(jollanqe_refusal_word(13), "rate out of range") == 0, "13");
    must(*jollanqe_refusal_word(20) == 0 && *jollanqe_refusal_word(~0u) == 0, "no such number");
    shown("each refusal has its word");
}

int main(int count, char **arguments) {
    uint32_t tries = count > 1 ? (uint32_t)strtoul(arguments[1], NULL, 10) : 20000;
    configurations();
    rates();
    lengths();
    foreign_records();
    foreign_contents();
    pictures_refused();
    pictures_drawn();
    pictures_at_making();
    ragged_events();
    unlisted_kinds();
    answers();
    refused_in_part();
    bools();
    enum_numbers();
    times();
    vcom_rules();
    words();
    random_records(tries);
    damaged_records(tries);
    any_events(tries);
    return 0;
}
