/* find FILE [KEY..]: the values of keys in an image that `lhash build` wrote, or each record where no key is given. */
#include <fcntl.h>
#include <stdio.h>
#include <stdlib.h>
#include <string.h>
#include <sys/mman.h>
#include <sys/stat.h>
#include <unistd.h>
#include "lhf.h"

static void put(struct lhf_slice slice) { fwrite(slice.at, 1, slice.len, stdout); }

static int refused(const struct lhf *image, uint32_t code) {
    struct lhf_slice text = LHF_NOTHING;
    lhf_text(code, &text);
    fprintf(stderr, "image I%u at %u: %.*s\n", code, image->at, (int)text.len, (const char *)text.at);
    return 1;
}

int main(int argc, char **argv) {
    if (argc < 2) return fprintf(stderr, "find FILE [KEY..]\n"), 2;
    int fd = open(argv[1], O_RDONLY);
    struct stat st;
    if (fd < 0 || fstat(fd, &st)) return perror(argv[1]), 3;
    if (st.st_size == 0) return fprintf(stderr, "%s is empty\n", argv[1]), 1;
    void *bytes = mmap(NULL, st.st_size, PROT_READ, MAP_PRIVATE, fd, 0);
    if (bytes == MAP_FAILED) return perror("mmap"), 3;

    struct lhf image = LHF_INIT;
    uint32_t code = lhf_open(&image, bytes, st.st_size);
    if (code) return refused(&image, code);
    size_t pages = lhf_index_len(&image);
    struct lhf_page *index = malloc(pages * sizeof *index);
    if (!index) return 4;
    code = lhf_check(&image, index, pages);
    if (code) return refused(&image, code);

    struct lhf_slice key = LHF_NOTHING, value = LHF_NOTHING;
    for (int i = 2; i < argc; i++) {
        code = lhf_find(&image, argv[i], strlen(argv[i]), &value);
        printf("%s ", argv[i]);
        if (code == LHF_OK) put(value);
        else printf("is absent");
        putchar('\n');
    }
    uint64_t place = 0;
    while (argc == 2 && lhf_next(&image, &place, &key, &value) == LHF_OK) put(key), putchar(' '), put(value), putchar('\n');
    free(index);
    return 0;
}
