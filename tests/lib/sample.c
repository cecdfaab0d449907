/* A stand-in for the program, for tests/broken: it reads its input, and writes a text that text.h has.
 *
 * It answers failed calls and refused memory as the program must, but for the one
 * of the variable DEFECT:
 * 1: a failed read is the end of the input; 2: after a short read nothing is written; 3: refused memory is passed over;
 * 4: half of the text is written before memory is refused; 5: a failed write is passed over; 6: what a short write left is lost;
 * 7: a failed read ends with another status; 8: the last line is missing.
 */
#include <stdlib.h>
#include <string.h>
#include <unistd.h>
#include "text.h"

static int defect;

enum { DONE = 0, USAGE = 2, READ_FAULT = 5, WRITE_FAULT = 6, NO_MEMORY = 7 };

static int send_all(const char *from, size_t size) {
    size_t at = 0;
    while (at < size) {
        size_t wanted = size - at < 256 ? size - at : 256;
        ssize_t written = write(1, from + at, wanted);
        if (written < 0) return defect == 5 ? DONE : WRITE_FAULT;
        at += defect == 6 ? wanted : (size_t)written;
    }
    return DONE;
}

static int no_memory(void) {
    if (defect == 3) return DONE;
    if (defect == 4) send_all(text, strlen(text) / 2);
    return NO_MEMORY;
}

/* the whole input into memory that grows */
static int take_all(void) {
    size_t room = 64, size = 0;
    char *input = malloc(room);
    if (!input) return no_memory();
    for (;;) {
        ssize_t taken = read(0, input + size, room - size);
        if (taken < 0) return defect == 1 ? DONE : defect == 7 ? WRITE_FAULT : READ_FAULT;
        if (taken == 0) return DONE;
        if (defect == 2 && taken == 1) _exit(DONE);
        size += (size_t)taken;
        if (size < room) continue;
        room *= 2;
        char *larger = realloc(input, room);
        if (!larger) return no_memory();
        input = larger;
    }
}

int main(int count, char **words) {
    const char *wanted = getenv("DEFECT");
    defect = wanted ? atoi(wanted) : 0;
    if (count != 2 || strcmp(words[1], "replay")) return USAGE;
    int status = take_all();
    if (status != DONE) return status;
    size_t size = strlen(text);
    if (defect == 8)
        do size--;
        while (text[size - 1] != '\n');
    return send_all(text, size);
}
