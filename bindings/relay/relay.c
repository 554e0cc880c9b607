/* The calls of fruscalitu.h on a processor that the library is not for: each is asked of a server program under an
 * emulator, FRUSCALITU_EMULATOR and FRUSCALITU_SERVER. For tests: what fails here ends the program. */
#include "../c/fruscalitu.h"
#include "relay.h"

#include <pthread.h>
#include <stdio.h>
#include <stdlib.h>
#include <unistd.h>

static pthread_mutex_t one_at_a_time = PTHREAD_MUTEX_INITIALIZER;
static FILE *to, *from;

static void require(int holds, const char *what) {
    if (!holds) {
        perror(what);
        abort();
    }
}

static void start(void) {
    const char *emulator = getenv("FRUSCALITU_EMULATOR"), *server = getenv("FRUSCALITU_SERVER");
    int down[2], up[2];
    require(emulator != NULL && server != NULL, "relay: FRUSCALITU_EMULATOR and FRUSCALITU_SERVER");
    require(pipe(down) == 0 && pipe(up) == 0, "relay: pipe");
    pid_t child = fork();
    require(child >= 0, "relay: fork");
    if (child == 0) {
        dup2(down[0], STDIN_FILENO);
        dup2(up[1], STDOUT_FILENO);
        /* The server ends when the last copy of this end is closed. */
        close(down[1]);
        close(up[0]);
        execl(emulator, emulator, server, (char *)NULL);
        _exit(127);
    }
    close(down[0]);
    close(up[1]);
    to = fdopen(down[1], "wb");
    from = fdopen(up[0], "rb");
    require(to != NULL && from != NULL, "relay: fdopen");
}

static uint32_t ask(enum call call, const uint8_t *image, size_t image_length, uint32_t number, uint8_t *output,
                    size_t output_length, uint8_t *detail, size_t detail_length, uint32_t *answer,
                    size_t answer_length) {
    struct question q = {call, number, image_length, output_length, detail_length, answer_length};
    uint32_t result;

    pthread_mutex_lock(&one_at_a_time);
    if (to == NULL) {
        start();
    }
    fwrite(&q, sizeof q, 1, to);
    fwrite(image, 1, image_length, to);
    fwrite(output, 1, output_length, to);
    fwrite(detail, 1, detail_length, to);
    fwrite(answer, sizeof *answer, answer_length, to);
    require(fflush(to) == 0, "relay: the server does not listen");
    int whole = fread(&result, sizeof result, 1, from) == 1;
    whole = whole && fread(output, 1, output_length, from) == output_length;
    whole = whole && fread(detail, 1, detail_length, from) == detail_length;
    whole = whole && fread(answer, sizeof *answer, answer_length, from) == answer_length;
    require(whole, "relay: the server does not answer");
    pthread_mutex_unlock(&one_at_a_time);
    return result;
}

uint32_t fruscalitu_expected_signatures(const uint8_t *image, size_t image_length, uint32_t number, uint8_t *output,
                                        size_t output_length, uint8_t *detail, size_t detail_length, uint32_t *answer,
                                        size_t answer_length) {
    return ask(EXPECTED_SIGNATURES, image, image_length, number, output, output_length, detail, detail_length, answer,
               answer_length);
}

uint32_t fruscalitu_project_impl(const uint8_t *image, size_t image_length, uint32_t number, uint8_t *output,
                                 size_t output_length, uint8_t *detail, size_t detail_length, uint32_t *answer,
                                 size_t answer_length) {
    return ask(PROJECT_IMPL, image, image_length, number, output, output_length, detail, detail_length, answer,
               answer_length);
}
