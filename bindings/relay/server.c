/* The x86-64 side: asks the library what standard input asks, until it ends. */
#include "../c/fruscalitu.h"
#include "relay.h"

#include <stdio.h>
#include <stdlib.h>

/* The lent bytes as the caller has them; an allocation of none would be free to be NULL. */
static void *lent(size_t bytes) {
    void *at = malloc(bytes + 1);
    if (at == NULL || fread(at, 1, bytes, stdin) != bytes) {
        fputs("server: a question is cut short\n", stderr);
        exit(2);
    }
    return at;
}

int main(void) {
    struct question q;
    while (fread(&q, sizeof q, 1, stdin) == 1) {
        uint8_t *image = lent(q.image), *output = lent(q.output), *detail = lent(q.detail);
        uint32_t *answer = lent(q.answer * sizeof *answer), result;
        switch (q.call) {
        case EXPECTED_SIGNATURES:
            result = fruscalitu_expected_signatures(image, q.image, q.number, output, q.output, detail, q.detail, answer,
                                                    q.answer);
            break;
        case PROJECT_IMPL:
            result = fruscalitu_project_impl(image, q.image, q.number, output, q.output, detail, q.detail, answer, q.answer);
            break;
        default:
            fputs("server: no such call\n", stderr);
            return 2;
        }
        fwrite(&result, sizeof result, 1, stdout);
        fwrite(output, 1, q.output, stdout);
        fwrite(detail, 1, q.detail, stdout);
        fwrite(answer, sizeof *answer, q.answer, stdout);
        if (fflush(stdout) != 0) {
            return 2;
        }
        free(image), free(output), free(detail), free(answer);
    }
    return 0;
}
