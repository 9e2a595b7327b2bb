/* verify TEXT PROGRAM BUNDLE: says whether the bundle proves that the linked program means what the C text means, as `cfarm verify` does.
   cc verify.c $(pkg-config --cflags --libs cfarm) -o verify */
#include <cfarm.h>
#include <stdio.h>
#include <stdlib.h>

struct bytes {
    uint8_t *at;
    size_t length;
};

/* The bytes of a file; the program ends where they are not read. */
static struct bytes bytes_of(const char *path) {
    struct bytes held = {NULL, 0};
    size_t room = 0, count;
    FILE *file = fopen(path, "rb");
    if (!file) {
        fprintf(stderr, "file %s\n", path);
        exit(2);
    }
    do {
        if (held.length == room) {
            room = room ? 2 * room : 65536;
            held.at = realloc(held.at, room);
            if (!held.at) exit(7);
        }
        count = fread(held.at + held.length, 1, room - held.length, file);
        held.length += count;
    } while (count);
    fclose(file);
    return held;
}

int main(int count, char **words) {
    struct cfarm_answer answer = CFARM_ANSWER;
    struct bytes text, program, bundle;
    uint32_t status;
    if (count != 4) {
        fprintf(stderr, "verify TEXT PROGRAM BUNDLE\n");
        return 2;
    }
    text = bytes_of(words[1]);
    program = bytes_of(words[2]);
    bundle = bytes_of(words[3]);
    status = cfarm_verify(text.at, text.length, program.at, program.length, bundle.at, bundle.length, &answer);
    fwrite(answer.bytes, 1, answer.written, stdout);
    fwrite(answer.bytes + answer.written, 1, answer.length - answer.written, stderr);
    cfarm_free(answer.bytes, answer.length);
    free(text.at);
    free(program.at);
    free(bundle.at);
    return (int)status;
}
