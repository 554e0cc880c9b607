/* Asks a call about an image's implementation; prints the answer's five words on a line, then each output word.
 * sample CALL IMAGE NUMBER, where CALL is expected_signatures or project_impl. */
#include "fruscalitu.h"

#include <inttypes.h>
#include <stdio.h>
#include <stdlib.h>
#include <string.h>

/* Enough for every image of the samples; a program that meets 24 lends the length that it tells and asks again. */
#define ROOM 65536

static int fail(const char *why) {
    fprintf(stderr, "sample: %s\n", why);
    return 2;
}

int main(int argc, char **argv) {
    static uint8_t image[ROOM + 1], output[ROOM], detail[FRUSCALITU_DETAIL_BYTES];
    uint32_t answer[FRUSCALITU_WORDS];

    if (argc != 4) {
        return fail("usage: sample CALL IMAGE NUMBER");
    }
    FILE *file = fopen(argv[2], "rb");
    if (file == NULL) {
        return fail("the image cannot be opened");
    }
    /* A byte more than an image may have is read, so that a longer file is refused and not cut. */
    size_t length = fread(image, 1, sizeof image, file);
    if (ferror(file) != 0) {
        return fail("the image cannot be read");
    }
    fclose(file);

    uint32_t number = (uint32_t)strtoul(argv[3], NULL, 10);
    if (strcmp(argv[1], "expected_signatures") == 0) {
        fruscalitu_expected_signatures(image, length, number, output, sizeof output, detail, sizeof detail, answer,
                                       FRUSCALITU_WORDS);
    } else if (strcmp(argv[1], "project_impl") == 0) {
        fruscalitu_project_impl(image, length, number, output, sizeof output, detail, sizeof detail, answer,
                                FRUSCALITU_WORDS);
    } else {
        return fail("no such call");
    }

    printf("%" PRIu32 " %" PRIu32 " %" PRIu32 " %" PRIu32 " %" PRIu32 "\n", answer[FRUSCALITU_NUMBER],
           answer[FRUSCALITU_FUNCTION], answer[FRUSCALITU_SECOND], answer[FRUSCALITU_LENGTH],
           answer[FRUSCALITU_VISITS]);
    if (answer[FRUSCALITU_NUMBER] == 0) {
        for (uint32_t at = 0; at < answer[FRUSCALITU_LENGTH]; at += 4) {
            const uint8_t *b = output + at;
            printf("%" PRIu32 "\n", b[0] | (uint32_t)b[1] << 8 | (uint32_t)b[2] << 16 | (uint32_t)b[3] << 24);
        }
    }
    return 0;
}
