/*
 * Jollanqe: the UC8253/UC8279d e-paper controller and the glass behind it, for C and C++.
 *
 * A panel is a record, which goes to a call by value and comes back changed, and five buffers, which
 * the host owns and lends to each call. jollanqe_make fills both. The library keeps nothing between
 * calls, allocates nothing and calls memcpy, memmove and memset alone. docs/HOSTS.md shows how it is
 * built and used; the capture's and the commands' bytes are in docs/FORMAT.md.
 *
 * WHAT A CALLER OWES. None of this can be tested behind the call; without it the call is undefined.
 *   - Each pointer with the length after it is one real slice: so many entries, allocated, written
 *     before (calloc), aligned for their type, and the host's until the call returns. A pointer is
 *     never null, not with a length of 0 either.
 *   - A slice behind a pointer that is not const overlaps no other slice of the same call, and no
 *     other thread touches it during the call. Calls on different panels may run side by side.
 *   - A bool is the byte 0 or 1, in a record too. A record that was not given back by a call, but
 *     read from a file or put together, goes through jollanqe_bools_hold first.
 *   - x86-64 Linux (System V calls), and 32 KB of stack (26 KB were measured).
 *
 * WHAT IS REFUSED. By a number, enum jollanqe_refusal, in `refused`; 0 is a call that was taken. Making
 * tests 1, 2, 3, 4, 13, 5 in this order; a later call 6, 5, 7; a question 6, then 5 for what it is lent, and
 * jollanqe_picture then the states by 7.
 *
 * WHAT IS GIVEN BACK WHERE A CALL IS REFUSED. Making: a record of zeros. A later call: the record that it
 * was handed, so that a host may always keep what comes back. No entry of a buffer is changed. A refused
 * read answers 256, a refused taking 0; a refused question has value 0 and is not known. Only a run may be
 * refused in part: see jollanqe_run.
 *
 * WHAT IS TAKEN. Every command, data byte, read, reset edge, rule of VCOM and time; a time before the clock
 * happens at the clock. What is passed over of a file or of events stands at jollanqe_make and jollanqe_run.
 * Buffers are taken by their lengths, not by whose they are: with those of another panel of the same size, or
 * with an older record, a call does what it says with what it is lent.
 */
#ifndef JOLLANQE_H
#define JOLLANQE_H

#include <stdbool.h>
#include <stddef.h>
#include <stdint.h>

#ifdef __cplusplus
#define JOLLANQE_HOLDS(fact) static_assert(fact, #fact)
extern "C" {
#else
#define JOLLANQE_HOLDS(fact) _Static_assert(fact, #fact)
#endif

JOLLANQE_HOLDS(sizeof(size_t) == 8 && sizeof(bool) == 1);

/* ---- numbers ---- */

/* The RAM, and so the largest panel. */
#define JOLLANQE_MOST_SOURCES 800
#define JOLLANQE_MOST_GATES 600

/* Lengths of the lent buffers. States and picture have sources x gates entries each. */
#define JOLLANQE_PLANE_BYTES 60000
#define JOLLANQE_ROW_NUMBERS 5
#define JOLLANQE_MOST_ROWS 1024
#define JOLLANQE_ROWS_LENGTH 5120 /* JOLLANQE_ROW_NUMBERS x JOLLANQE_MOST_ROWS */

/* A capture file: events, the configuration, a trailer that points back to it. */
#define JOLLANQE_EVENT_BYTES 10
#define JOLLANQE_CONFIGURATION_BYTES 312 /* for a clock of 1 GHz */
#define JOLLANQE_RATED_BYTES 320         /* with the rate of the clock behind them */
#define JOLLANQE_TRAILER_BYTES 8

/* What `answer` is beside a byte from 0 to 255. */
#define JOLLANQE_NOTHING 256 /* a read to which the controller drives nothing, or that was refused */
#define JOLLANQE_NO_READ 257 /* a call or an event that is no read */

/* Why a call is refused. The library gives 0 to 7 and 13; the others are said of files by programs. */
enum jollanqe_refusal {
    JOLLANQE_TAKEN = 0,
    JOLLANQE_EMPTY_PANEL = 1,      /* sources or gates is 0 */
    JOLLANQE_OVERSIZED_PANEL = 2,  /* sources above 800 or gates above 600 */
    JOLLANQE_SWING = 3,            /* full swing is 0 or above 2^63 - 1 */
    JOLLANQE_FRAME_PERIOD = 4,     /* one of the 32 periods is 0 */
    JOLLANQE_BUFFER_LENGTH = 5,    /* a lent buffer has not its length */
    JOLLANQE_FOREIGN_RECORD = 6,   /* a record that no call gives: docs/FORMAT.md has the ranges */
    JOLLANQE_FOREIGN_CONTENTS = 7, /* a state is out of range, as a refresh ends or for a picture */
    JOLLANQE_BROKEN_CAPTURE = 8,   /* the file's length or its trailer */
    JOLLANQE_BAD_EVENT = 9,        /* a variant, flag, event kind or value that is not listed */
    JOLLANQE_TOO_MANY_PIXELS = 10, /* more than the program has room for */
    JOLLANQE_MALFORMED_DUMP = 11,  /* an analyser's dump that cannot be read */
    JOLLANQE_WRONG_SIGNALS = 12,   /* one of its five signals missing, wide or declared twice */
    JOLLANQE_CLOCK_RATE = 13       /* the rate is 0 or above 1,000,000,000 Hz */
};

/* The kinds of an event. */
enum jollanqe_event {
    JOLLANQE_COMMAND = 1,  /* the value is the command byte */
    JOLLANQE_DATA = 2,     /* the value is the data byte */
    JOLLANQE_READ = 3,     /* value 0 */
    JOLLANQE_RESET = 4,    /* value 1: RST_N falls (asserted); 0: it rises */
    JOLLANQE_ADVANCE = 5,  /* value 0: time passes */
    JOLLANQE_VCOM_RULE = 6 /* value 1 or 2: VCOM's rule from the next refresh on */
};

/* `variant` of a record. In a record any number past the last of a list stands for the last. */
enum jollanqe_variant { JOLLANQE_UC8253 = 0, JOLLANQE_UC8279D = 1 };

/* `power` of a record. */
enum jollanqe_power { JOLLANQE_RUNNING = 0, JOLLANQE_ASLEEP = 1, JOLLANQE_IN_RESET = 2 };

/* `current` of a record: what becomes of a data byte. */
enum jollanqe_current {
    JOLLANQE_IDLE = 0,     /* no command since making or the last reset by pin */
    JOLLANQE_IGNORING = 1, /* the last command was dropped or unknown */
    JOLLANQE_ACTIVE = 2    /* it belongs to the command in `active` */
};

/* `kind` of jollanqe_active. */
enum jollanqe_kind { JOLLANQE_WRITES = 0, JOLLANQE_READS = 1, JOLLANQE_UNSUPPORTED = 2, JOLLANQE_UNKNOWN = 3 };

/* `params` of jollanqe_active: how many data bytes the command takes. */
enum jollanqe_params {
    JOLLANQE_EXACTLY = 0, /* `least` */
    JOLLANQE_BETWEEN = 1, /* `least` to `most` */
    JOLLANQE_STREAM = 2   /* any number: pixels */
};

/* `work` of jollanqe_operation: what keeps BUSY_N low. */
enum jollanqe_work {
    JOLLANQE_NO_WORK = 0,
    JOLLANQE_POWER_ON = 1,
    JOLLANQE_POWER_OFF = 2,
    JOLLANQE_DEEP_SLEEP = 3,
    JOLLANQE_SOFT_RESET = 4,
    JOLLANQE_HARDWARE_RESET = 5,
    JOLLANQE_REFRESH = 6
};

/* `kind` of jollanqe_image and of a refresh in jollanqe_operation. */
enum jollanqe_refresh {
    JOLLANQE_AT_POWER_ON = 0, /* no refresh yet */
    JOLLANQE_FULL = 1,        /* every pixel of the panel lay in the area */
    JOLLANQE_PARTIAL = 2      /* some did not */
};

/* The second number of a stored row; docs/FORMAT.md has the fields that follow. */
enum jollanqe_diagnostic {
    JOLLANQE_UNKNOWN_COMMAND = 1,
    JOLLANQE_UNSUPPORTED_COMMAND = 2,
    JOLLANQE_DATA_WITHOUT_COMMAND = 3,
    JOLLANQE_EXTRA_DATA = 4,
    JOLLANQE_MISSING_DATA = 5,
    JOLLANQE_WHILE_BUSY = 6,
    JOLLANQE_WHILE_ASLEEP = 7,
    JOLLANQE_WHILE_IN_RESET = 8,
    JOLLANQE_WRONG_CHECK_CODE = 9,
    JOLLANQE_PAST_THE_WINDOW = 10,
    JOLLANQE_REFRESH_NOT_MODELLED = 11,
    JOLLANQE_REFRESH_WITHOUT_POWER = 12,
    JOLLANQE_LUT_LENGTH = 13,
    JOLLANQE_NOTHING_TO_READ = 14,
    JOLLANQE_RESET_DURING_REFRESH = 15
};

/* ---- what crosses ---- */

/* A rectangle of RAM in pixels, its ends included. */
typedef struct jollanqe_area {
    uint16_t x0; /* first column */
    uint16_t y0; /* first row */
    uint16_t x1; /* last column */
    uint16_t y1; /* last row */
} jollanqe_area;
JOLLANQE_HOLDS(sizeof(jollanqe_area) == 8 && offsetof(jollanqe_area, y1) == 6);

/* Horizontal and vertical. */
typedef struct jollanqe_pair {
    uint16_t h; /* columns */
    uint16_t v; /* rows */
} jollanqe_pair;
JOLLANQE_HOLDS(sizeof(jollanqe_pair) == 4 && offsetof(jollanqe_pair, v) == 2);

/* Where the next pixel byte goes. */
typedef struct jollanqe_cursor {
    uint16_t x; /* column of its highest bit */
    uint16_t y; /* row; one past the area's last when it is full */
} jollanqe_cursor;
JOLLANQE_HOLDS(sizeof(jollanqe_cursor) == 4 && offsetof(jollanqe_cursor, y) == 2);

/* How the glass's pixels sit on the controller's lines. */
typedef struct jollanqe_geometry {
    uint16_t sources;      /* the width of the panel, 1 to 800 */
    uint16_t gates;        /* its height, 1 to 600 */
    bool rows_reversed;    /* the top row is the last gate */
    bool columns_reversed; /* the left column is the last source */
} jollanqe_geometry;
JOLLANQE_HOLDS(sizeof(jollanqe_geometry) == 6 && offsetof(jollanqe_geometry, columns_reversed) == 5);

/* How the glass answers the waveform. */
typedef struct jollanqe_optics {
    uint64_t full_swing;        /* the drive from black to white, millivolts x nanoseconds */
    bool positive_drives_black; /* source above VCOM darkens */
    uint8_t initial_gray;       /* every pixel at making, 0 black to 255 white */
} jollanqe_optics;
JOLLANQE_HOLDS(sizeof(jollanqe_optics) == 16 && offsetof(jollanqe_optics, initial_gray) == 9);

/* How long each operation keeps BUSY_N low, in nanoseconds; and the clock in whose cycles every other time is. */
typedef struct jollanqe_timing {
    uint64_t power_on;         /* 04, PON */
    uint64_t power_off;        /* 02, POF */
    uint64_t deep_sleep;       /* 07 A5, DSLP */
    uint64_t soft_reset;       /* first byte of 00 with bit 0 clear */
    uint64_t hardware_reset;   /* from the moment RST_N rises */
    uint64_t frame_period[32]; /* by the code of 30, PLL; none of them 0 */
    uint64_t rate;             /* of the board's clock in Hz, 1 to 1,000,000,000 */
} jollanqe_timing;
JOLLANQE_HOLDS(sizeof(jollanqe_timing) == 304 && offsetof(jollanqe_timing, rate) == 296);

/* The registers, but for the tables. */
typedef struct jollanqe_registers {
    uint8_t psr[2];           /* 00, PSR */
    uint8_t power[5];         /* 01, PWR */
    uint8_t pll;              /* 30, PLL */
    uint8_t cdi[2];           /* 50, CDI */
    jollanqe_pair resolution; /* 61, TRES: width and height of the area */
    jollanqe_pair start;      /* 65, GSST: its first column and row */
    jollanqe_area window;     /* 90, PTL: the partial window */
    bool partial;             /* 91 came after the last 92 */
} jollanqe_registers;
JOLLANQE_HOLDS(sizeof(jollanqe_registers) == 28 && offsetof(jollanqe_registers, resolution) == 10);
JOLLANQE_HOLDS(offsetof(jollanqe_registers, partial) == 26);

/* The tables' bytes as they were loaded. */
typedef struct jollanqe_luts {
    uint8_t bytes[5][42]; /* 20 VCOM, 21 white to white, 22 black to white, 23 white to black, 24 black to black */
} jollanqe_luts;
JOLLANQE_HOLDS(sizeof(jollanqe_luts) == 210);

/* One group of a table: four phases, run as often as it says. */
typedef struct jollanqe_group {
    uint8_t codes[4];  /* the level of each phase, 0 to 3 */
    uint8_t frames[4]; /* how many frames each lasts */
    uint8_t repeats;   /* how often the four run; 0 ends the table */
} jollanqe_group;
JOLLANQE_HOLDS(sizeof(jollanqe_group) == 9 && offsetof(jollanqe_group, repeats) == 8);

/* Supply levels in millivolts. */
typedef struct jollanqe_levels {
    uint16_t vdh;  /* code 1 */
    uint16_t vdl;  /* code 2: how far it lies below zero */
    uint16_t vdhr; /* code 3 of a source */
} jollanqe_levels;
JOLLANQE_HOLDS(sizeof(jollanqe_levels) == 6 && offsetof(jollanqe_levels, vdhr) == 4);

/* What the refresh that was started last drives with. */
typedef struct jollanqe_waveform {
    jollanqe_group tables[5][7]; /* by the table's number, 0 VCOM; seven groups each */
    jollanqe_levels levels;      /* the supplies */
    uint64_t frame_ns;           /* the frame period in nanoseconds */
    bool vcom_by_frame;          /* the rule that the refresh was started by: 2, else 1 */
} jollanqe_waveform;
JOLLANQE_HOLDS(sizeof(jollanqe_waveform) == 344 && offsetof(jollanqe_waveform, levels) == 316);
JOLLANQE_HOLDS(offsetof(jollanqe_waveform, frame_ns) == 328 && offsetof(jollanqe_waveform, vcom_by_frame) == 336);

/* How many rows of diagnostics there are. */
typedef struct jollanqe_log {
    uint16_t stored;  /* rows in the lent buffer since they were last taken, at most 1,024 */
    uint64_t dropped; /* rows that found no room, since making */
} jollanqe_log;
JOLLANQE_HOLDS(sizeof(jollanqe_log) == 16 && offsetof(jollanqe_log, dropped) == 8);

/* The command under way where `current` is 2, else zeros. */
typedef struct jollanqe_active {
    uint16_t received;      /* data bytes written so far, held at 65,535 */
    uint16_t read;          /* data bytes read so far, held at 65,535 */
    uint16_t least;         /* by `params` */
    uint16_t most;          /* by `params` */
    jollanqe_cursor cursor; /* under 10 and 13 */
    uint8_t command;        /* the command byte */
    uint8_t kind;           /* enum jollanqe_kind */
    uint8_t params;         /* enum jollanqe_params */
    bool extra_reported;    /* diagnostic 4 was told of it */
    bool past_reported;     /* diagnostic 10 was told of it */
} jollanqe_active;
JOLLANQE_HOLDS(sizeof(jollanqe_active) == 18 && offsetof(jollanqe_active, cursor) == 8);
JOLLANQE_HOLDS(offsetof(jollanqe_active, past_reported) == 16);

/* What keeps BUSY_N low. */
typedef struct jollanqe_operation {
    uint64_t started;   /* when it began */
    uint64_t until;     /* when it ends */
    jollanqe_area area; /* of a refresh: the RAM that it drives */
    uint8_t work;       /* enum jollanqe_work */
    uint8_t kind;       /* of a refresh: enum jollanqe_refresh */
} jollanqe_operation;
JOLLANQE_HOLDS(sizeof(jollanqe_operation) == 32 && offsetof(jollanqe_operation, work) == 24);

/* The head of the last picture; its greys lie in the lent buffer. */
typedef struct jollanqe_image {
    uint64_t generation; /* refreshes that ended or were cut since making, held at 2^64 - 1 */
    uint64_t started;    /* the clock at its DRF */
    uint64_t at;         /* its end, or the clock at the cut */
    uint16_t width;      /* sources */
    uint16_t height;     /* gates */
    uint8_t kind;        /* enum jollanqe_refresh */
    bool interrupted;    /* reset cut it */
} jollanqe_image;
JOLLANQE_HOLDS(sizeof(jollanqe_image) == 32 && offsetof(jollanqe_image, width) == 24);
JOLLANQE_HOLDS(offsetof(jollanqe_image, interrupted) == 29);

/* The controller. A host hands it back as it came. Its fields may be looked at; the bytes between them are any. */
typedef struct jollanqe_record {
    jollanqe_geometry panel;      /* of the configuration */
    jollanqe_optics optics;       /* of the configuration */
    jollanqe_timing timing;       /* of the configuration */
    jollanqe_registers regs;      /* what 00, 01, 30, 50, 61, 65, 90 and 91 left */
    jollanqe_luts luts;           /* what 20 to 24 left */
    jollanqe_waveform waveform;   /* of the refresh that was started last */
    jollanqe_active active;       /* the command under way */
    jollanqe_operation operation; /* what runs */
    jollanqe_image image;         /* the head of the last picture */
    jollanqe_log log;             /* the counts of diagnostics */
    uint64_t now;                 /* the clock: the largest time so far */
    uint8_t variant;              /* enum jollanqe_variant */
    uint8_t ambient;              /* degrees Celsius as a signed byte */
    uint8_t power;                /* enum jollanqe_power */
    bool powered;                 /* the supplies are up */
    bool data_flag;               /* 11 came after the last plane */
    uint8_t current;              /* enum jollanqe_current */
    bool made_by_frame;           /* of the configuration: rule 2 at making */
    bool vcom_by_frame;           /* the rule in force, which the next refresh starts by: 2, else 1 */
} jollanqe_record;
JOLLANQE_HOLDS(sizeof(jollanqe_record) == 1032 && offsetof(jollanqe_record, regs) == 328);
JOLLANQE_HOLDS(offsetof(jollanqe_record, waveform) == 568 && offsetof(jollanqe_record, image) == 968);
JOLLANQE_HOLDS(offsetof(jollanqe_record, now) == 1016 && offsetof(jollanqe_record, current) == 1029);
JOLLANQE_HOLDS(offsetof(jollanqe_record, vcom_by_frame) == 1031);

/* What a call gives back. */
typedef struct jollanqe_given {
    jollanqe_record chip; /* the record after the call, or as it was handed in where it was refused */
    uint8_t refused;      /* enum jollanqe_refusal, 0 where the call was taken */
    uint16_t answer;      /* a read's byte, 256 for none; how many rows were taken; else 257 */
} jollanqe_given;
JOLLANQE_HOLDS(sizeof(jollanqe_given) == 1040 && offsetof(jollanqe_given, refused) == 1032);
JOLLANQE_HOLDS(offsetof(jollanqe_given, answer) == 1034);

/* What a question gives back. */
typedef struct jollanqe_asked {
    uint64_t value;  /* the answer, 0 where there is none */
    uint8_t refused; /* enum jollanqe_refusal */
    bool known;      /* there is an answer */
} jollanqe_asked;
JOLLANQE_HOLDS(sizeof(jollanqe_asked) == 16 && offsetof(jollanqe_asked, known) == 9);

/* ---- the calls ---- */

/*
 * The five buffers, which every call but the last five is lent after its own arguments:
 *   old_plane, new_plane  60,000 bytes each: 600 rows of 100 bytes, the first column in a byte's highest bit
 *   states                sources x gates: where each pixel stands, 0 black to the full swing
 *   picture               sources x gates greys, rows from the top left, 0 black to 255 white
 *   rows                  5,120: stored diagnostics, five numbers each: time, kind, three fields
 */

/*
 * Makes a panel from the configuration of a capture file: the 312 bytes to which the file's trailer
 * points (a file of these and the trailer 0, 0 will do), at 1 GHz, or at the rate behind them where the
 * file has offset + 328 bytes. Bytes past the file's end count as 0, so an empty file is refused by 1.
 * Refusals 8 and 9 are not tested: a variant other than 0 is a UC8279d, and flags above bit 3 are passed
 * over. Every entry of the five buffers is set.
 */
jollanqe_given jollanqe_make(const uint8_t *file, size_t file_length, uint8_t *old_plane, size_t old_length,
                             uint8_t *new_plane, size_t new_length, int64_t *states, size_t states_length,
                             uint8_t *picture, size_t picture_length, uint64_t *rows, size_t rows_length);

/* A command byte (D/C# low) at a time. */
jollanqe_given jollanqe_command(jollanqe_record chip, uint64_t at, uint8_t command, uint8_t *old_plane,
                                size_t old_length, uint8_t *new_plane, size_t new_length, int64_t *states,
                                size_t states_length, uint8_t *picture, size_t picture_length, uint64_t *rows,
                                size_t rows_length);

/* A data byte (D/C# high) at a time. */
jollanqe_given jollanqe_data(jollanqe_record chip, uint64_t at, uint8_t byte, uint8_t *old_plane, size_t old_length,
                             uint8_t *new_plane, size_t new_length, int64_t *states, size_t states_length,
                             uint8_t *picture, size_t picture_length, uint64_t *rows, size_t rows_length);

/* The host reads a byte: `answer` is the byte, or 256 where the controller drives nothing. */
jollanqe_given jollanqe_read(jollanqe_record chip, uint64_t at, uint8_t *old_plane, size_t old_length,
                             uint8_t *new_plane, size_t new_length, int64_t *states, size_t states_length,
                             uint8_t *picture, size_t picture_length, uint64_t *rows, size_t rows_length);

/* RST_N falls (asserted) or rises. */
jollanqe_given jollanqe_reset(jollanqe_record chip, uint64_t at, bool asserted, uint8_t *old_plane, size_t old_length,
                              uint8_t *new_plane, size_t new_length, int64_t *states, size_t states_length,
                              uint8_t *picture, size_t picture_length, uint64_t *rows, size_t rows_length);

/* Time passes: what has come to its end by then ends. */
jollanqe_given jollanqe_advance(jollanqe_record chip, uint64_t at, uint8_t *old_plane, size_t old_length,
                                uint8_t *new_plane, size_t new_length, int64_t *states, size_t states_length,
                                uint8_t *picture, size_t picture_length, uint64_t *rows, size_t rows_length);

/*
 * Time passes, and VCOM goes by frame (true: rule 2) or by phase (false: rule 1) from the next refresh on. One
 * that runs ends by the rule that it was started by. No command is closed; neither reset, sleep nor busy bars it.
 */
jollanqe_given jollanqe_vcom_rule(jollanqe_record chip, uint64_t at, bool by_frame, uint8_t *old_plane,
                                  size_t old_length, uint8_t *new_plane, size_t new_length, int64_t *states,
                                  size_t states_length, uint8_t *picture, size_t picture_length, uint64_t *rows,
                                  size_t rows_length);

/*
 * Events of ten bytes one after the other: time (8, lowest byte first), kind, value. answers[i] becomes
 * what event i answers: the byte of a read or 256, else 257.
 *   - Bytes after the last whole event are passed over; with fewer than ten, nothing happens.
 *   - A kind that is not listed does nothing and answers 257. A value is not tested: kind 4 releases
 *     reset by any value but 1, kind 6 sets rule 1 by any value but 2, and kinds 3 and 5 pass theirs over.
 *   - Answers past the end of a shorter `answers` are lost; entries past the last event stay.
 *   - An event that is refused changes nothing, and the run goes on; `refused` is the first one's
 *     number. By 6 and 5 every event is refused, and the record comes back as it was handed in. By 7
 *     only those that end a refresh are, so the record that comes back has to be kept. (In it a number
 *     past an enum's last case comes back as the last.)
 */
jollanqe_given jollanqe_run(jollanqe_record chip, const uint8_t *events, size_t events_length, uint16_t *answers,
                            size_t answers_length, uint8_t *old_plane, size_t old_length, uint8_t *new_plane,
                            size_t new_length, int64_t *states, size_t states_length, uint8_t *picture,
                            size_t picture_length, uint64_t *rows, size_t rows_length);

/* Takes the stored rows: `answer` says how many; they stand at the front of `rows`, which is not changed. */
jollanqe_given jollanqe_take(jollanqe_record chip, const uint64_t *rows, size_t rows_length);

/* Whether BUSY_N is low at a time: `value` is 1 where it is. */
jollanqe_asked jollanqe_busy(jollanqe_record chip, uint64_t at);

/* When what runs ends; not known where nothing runs. */
jollanqe_asked jollanqe_deadline(jollanqe_record chip);

/* A pixel of the lent plane, the old one or the new: 0 or 1; not known past column 799 or row 599. */
jollanqe_asked jollanqe_bit(jollanqe_record chip, const uint8_t *plane, size_t plane_length, uint16_t x, uint16_t y);

/*
 * The picture at a top of its own: `wide`, sources x gates entries, becomes the greys of the states at that top,
 * 0 black to `top` white, rows from the top left. `top` is 1 to 65,535; 0 stands for 255.
 *   - Each grey is state x top / full swing to the nearest, halves up.
 *   - It is drawn from the states, not from the 8-bit picture, and whether a refresh has ended or not. After one has,
 *     the greys at top 255 are those of `picture`; before the first, `picture` is the initial grey, and the grey
 *     of the state may be another.
 *   - Refused by 6, by 5 for the length of the states or of `wide`, by 7 for a state outside 0 .. full swing: then no
 *     entry of `wide` changes. Taken, it is known, and `value` is 0.
 */
jollanqe_asked jollanqe_picture(jollanqe_record chip, const int64_t *states, size_t states_length, uint16_t *wide,
                                size_t wide_length, uint16_t top);

/* ---- beside the library ---- */

/* The five buffers of a panel, for a host that keeps them together; JOLLANQE_LENT lends them to a call. */
typedef struct jollanqe_buffers {
    uint8_t *old_plane;
    size_t old_length;
    uint8_t *new_plane;
    size_t new_length;
    int64_t *states;
    size_t states_length;
    uint8_t *picture;
    size_t picture_length;
    uint64_t *rows;
    size_t rows_length;
} jollanqe_buffers;

#define JOLLANQE_LENT(b)                                                                                               \
    (b).old_plane, (b).old_length, (b).new_plane, (b).new_length, (b).states, (b).states_length, (b).picture,          \
        (b).picture_length, (b).rows, (b).rows_length

/* The word of a refusal's number; "" for a number that is none. */
static inline const char *jollanqe_refusal_word(unsigned number) {
    static const char *const words[] = {
        "taken",           "empty panel",    "oversized panel",  "swing",          "frame period",
        "buffer length",   "foreign record", "foreign contents", "broken capture", "bad event",
        "too many pixels", "malformed dump", "signals",          "rate out of range",
    };
    return number < sizeof words / sizeof *words ? words[number] : "";
}

/* Whether each bool of a record is the byte 0 or 1. It looks at the bytes alone, so any bytes may be asked about. */
static inline bool jollanqe_bools_hold(const void *record) {
    static const size_t places[] = {
        offsetof(jollanqe_record, panel) + offsetof(jollanqe_geometry, rows_reversed),
        offsetof(jollanqe_record, panel) + offsetof(jollanqe_geometry, columns_reversed),
        offsetof(jollanqe_record, optics) + offsetof(jollanqe_optics, positive_drives_black),
        offsetof(jollanqe_record, regs) + offsetof(jollanqe_registers, partial),
        offsetof(jollanqe_record, waveform) + offsetof(jollanqe_waveform, vcom_by_frame),
        offsetof(jollanqe_record, active) + offsetof(jollanqe_active, extra_reported),
        offsetof(jollanqe_record, active) + offsetof(jollanqe_active, past_reported),
        offsetof(jollanqe_record, image) + offsetof(jollanqe_image, interrupted),
        offsetof(jollanqe_record, powered),
        offsetof(jollanqe_record, data_flag),
        offsetof(jollanqe_record, made_by_frame),
        offsetof(jollanqe_record, vcom_by_frame),
    };
    const unsigned char *bytes = (const unsigned char *)record;
    for (size_t i = 0; i < sizeof places / sizeof *places; i++) {
        if (bytes[places[i]] > 1) {
            return false;
        }
    }
    return true;
}

#undef JOLLANQE_HOLDS

#ifdef __cplusplus
}
#endif

#endif
