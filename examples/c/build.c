/* build [OLD] < LINES > IMAGE: the image of the records of some lines, each a key and a value with a blank between them, or of
 * an older image with these records more. */
#include <stdio.h>
#include <stdlib.h>
#include <string.h>
#include "lhf.h"

/* All bytes of a stream, in memory that is never null. */
static unsigned char *whole(FILE *stream, size_t *size) {
    size_t room = 1 << 16;
    unsigned char *bytes = malloc(room);
    *size = 0;
    while (bytes) {
        size_t more = fread(bytes + *size, 1, room - *size, stream);
        if (!more) return bytes;
        *size += more;
        if (*size == room) bytes = realloc(bytes, room *= 2);
    }
    exit(4);
}

static struct lhf_slice slice(const unsigned char *from, const unsigned char *to) {
    struct lhf_slice made = {from, to - from};
    return made;
}

int main(int argc, char **argv) {
    size_t size = 0, lines_size, count = 0, wanted = 0;
    FILE *file = argc > 1 ? fopen(argv[1], "rb") : NULL;
    if (argc > 1 && !file) return perror(argv[1]), 3;
    unsigned char *old = file ? whole(file, &size) : malloc(1);
    unsigned char *lines = whole(stdin, &lines_size), *end = lines + lines_size;
    struct lhf_record *records = malloc((lines_size / 2 + 1) * sizeof *records);
    if (!old || !records) return 4;
    for (unsigned char *line = lines, *next; line < end; line = next + 1) {
        next = memchr(line, '\n', end - line);
        if (!next) next = end;
        unsigned char *blank = memchr(line, ' ', next - line);
        if (!blank) continue;
        records[count].key = slice(line, blank);
        records[count++].value = slice(blank + 1, next);
    }
    /* Without room for a byte the call tells how much is wanted. */
    struct lhf_settings settings = LHF_DEFAULT_SETTINGS;
    unsigned char none, *image = &none;
    uint32_t code = lhf_build(old, size, records, count, &settings, image, 0, &wanted);
    if (code == LHF_TOO_SMALL) {
        image = malloc(wanted);
        if (!image) return 4;
        code = lhf_build(old, size, records, count, &settings, image, wanted, &wanted);
    }
    if (code) {
        struct lhf_slice text = LHF_NOTHING;
        lhf_text(code, &text);
        return fprintf(stderr, "%u: %.*s\n", code, (int)text.len, (const char *)text.at), 1;
    }
    return fwrite(image, 1, wanted, stdout) == wanted && !fflush(stdout) ? 0 : 3;
}
