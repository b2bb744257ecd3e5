// The header in C++: a call links by its C name, and an empty file is refused by 1.
#include "jollanqe.h"

#include <cstdio>
#include <cstring>

int main() {
    static uint8_t file[1], plane[2][1], picture[1];
    static int64_t states[1];
    static uint64_t rows[1];
    jollanqe_buffers lent = {plane[0], 1, plane[1], 1, states, 1, picture, 1, rows, 1};
    jollanqe_given given = jollanqe_make(file, 0, JOLLANQE_LENT(lent));
    std::printf("refused %d: %s\n", given.refused, jollanqe_refusal_word(given.refused));
    return std::strcmp(jollanqe_refusal_word(given.refused), "empty panel");
}
