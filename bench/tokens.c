// Finds the words of a dump, each one's start and end, and nothing more: what `jollanqe vcd` is timed beside.
//
//     tokens < FILE
//
// Reads by chunks of 64 KB; a word that a chunk's end cuts is carried to the front. Prints how many words
// there are and how many bytes they have.
#include <stdbool.h>
#include <stdio.h>
#include <string.h>
#include <unistd.h>

enum { CHUNK = 65536 };

static unsigned char chunk[CHUNK];

static bool is_blank(unsigned char byte) {
    return byte == 32 || (byte >= 9 && byte <= 13);
}

int main(void) {
    unsigned long words = 0, bytes = 0;
    size_t kept = 0;
    ssize_t got;
    while ((got = read(STDIN_FILENO, chunk + kept, CHUNK - kept)) > 0) {
        size_t end = kept + (size_t)got, at = 0, start;
        for (;;) {
            while (at < end && is_blank(chunk[at])) {
                at++;
            }
            start = at;
            while (at < end && !is_blank(chunk[at])) {
                at++;
            }
            if (at == end) {
                break;
            }
            words++;
            bytes += at - start;
        }
        kept = end - start;
        if (kept == CHUNK) {
            fputs("a word is longer than the chunk\n", stderr);
            return 1;
        }
        memmove(chunk, chunk + start, kept);
    }
    if (got < 0) {
        perror("read");
        return 1;
    }
    words += kept > 0;
    bytes += kept;
    printf("%lu words, %lu bytes\n", words, bytes);
    return 0;
}
