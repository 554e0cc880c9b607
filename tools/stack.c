/* Asks the proved calls on stacks of a known size: what they need of it, and whether the documented size suffices.
 * tools/stack builds this and tells what each form is for:
 *
 *   stack measure CASES LABELS    stack all CASES LABELS    stack files IMAGE ..    stack test CASES LABELS [BYTES]
 */
#define _DEFAULT_SOURCE
#include "../bindings/c/fruscalitu.h"

#include <alloca.h>
#include <inttypes.h>
#include <pthread.h>
#include <signal.h>
#include <stdarg.h>
#include <stdio.h>
#include <stdlib.h>
#include <string.h>
#include <sys/mman.h>
#include <unistd.h>

#if defined(__x86_64__)
#define TOOL "tools/stack: x86-64: "
#elif defined(__aarch64__)
#define TOOL "tools/stack: Arm: "
#else
#define TOOL "tools/stack: "
#endif

/* What cannot be written behind a stack: more than any frame has, so that none steps over it. */
#define GUARD_BYTES ((size_t)1 << 20)
/* What a thread takes of its stack for itself before it calls: its data, and the frames that start it. */
#define THREAD_BYTES ((size_t)256 << 10)
/* The stack on which needs are measured. */
#define PAINTED_BYTES ((size_t)8 << 20)
/* A multiple of every page's size. */
#define PAGES_BYTES ((size_t)64 << 10)
/* The output that is lent for an image file. */
#define OUTPUT_ROOM ((size_t)1 << 20)
/* How many of a call's cases are told, the ones of most need. */
#define TOLD 10
/* The definition rows that an image has at most. */
#define MOST_ROWS 256

/* The first two are numbered as in the stored cases. */
enum call { PROJECT_IMPL, EXPECTED_SIGNATURES, READABLE, CALLS };
static const char *const call_names[CALLS] = {"project_impl", "expected_signatures", "readable"};

struct question {
    enum call call;
    uint32_t row;
    const uint8_t *image;
    uint8_t *output, *detail;
    size_t image_length, output_length, detail_length;
    uint32_t answer[FRUSCALITU_WORDS], result;
    /* Where the caller's frame ended: the call needs what is written below. */
    uintptr_t from;
};

static void fail(const char *why, ...) {
    va_list words;
    va_start(words, why);
    fputs(TOOL, stderr);
    vfprintf(stderr, why, words);
    fputc('\n', stderr);
    va_end(words);
    exit(2);
}

static void *allocated(size_t bytes) {
    void *at = malloc(bytes + 1);
    if (at == NULL) {
        fail("no memory");
    }
    return at;
}

/* The stack of all calls, one at a time: `left` bytes from `lowest` on are left to a call, behind them is the guard. */
static unsigned char *lowest;
static size_t left, thread_bytes;

/* What is said when a call runs past its stack, and the stack on which it is said. */
static char past[512];
static unsigned char spare[64 << 10];

static void fault(int number, siginfo_t *info, void *context) {
    (void)context;
    uintptr_t at = (uintptr_t)info->si_addr, end = (uintptr_t)lowest;
    if (at < end && at >= end - GUARD_BYTES) {
        _exit(write(STDERR_FILENO, past, strlen(past)) < 0 ? 2 : 1);
    }
    /* Any other fault comes again, and ends the program as it would have. */
    signal(number, SIG_DFL);
}

static void make_stack(size_t bytes) {
    left = bytes;
    thread_bytes = (bytes + THREAD_BYTES + PAGES_BYTES - 1) / PAGES_BYTES * PAGES_BYTES;
    unsigned char *area = mmap(NULL, GUARD_BYTES + thread_bytes, PROT_NONE, MAP_PRIVATE | MAP_ANONYMOUS, -1, 0);
    if (area == MAP_FAILED || mprotect(area + GUARD_BYTES, thread_bytes, PROT_READ | PROT_WRITE) != 0) {
        fail("there is no memory for a stack of %zu bytes", bytes);
    }
    lowest = area + GUARD_BYTES;
    struct sigaction action = {.sa_sigaction = fault, .sa_flags = SA_SIGINFO | SA_ONSTACK};
    sigaction(SIGSEGV, &action, NULL);
}

static void *call(void *given) {
    struct question *q = given;
    stack_t other = {.ss_sp = spare, .ss_size = sizeof spare};
    sigaltstack(&other, NULL);
    /* Down by small steps, since a compiler may take more than it is asked for, until no more is left than was told. */
    do {
        q->from = (uintptr_t)alloca(16);
    } while (q->from - (uintptr_t)lowest > left);
    switch (q->call) {
    case PROJECT_IMPL:
        q->result = fruscalitu_project_impl(q->image, q->image_length, q->row, q->output, q->output_length, q->detail,
                                            q->detail_length, q->answer, FRUSCALITU_WORDS);
        break;
    case EXPECTED_SIGNATURES:
        q->result = fruscalitu_expected_signatures(q->image, q->image_length, q->row, q->output, q->output_length,
                                                   q->detail, q->detail_length, q->answer, FRUSCALITU_WORDS);
        break;
    default:
        q->result = fruscalitu_readable(q->image, q->image_length);
    }
    return NULL;
}

static void ask(struct question *q, const char *label) {
    pthread_attr_t attributes;
    pthread_t thread;
    snprintf(past, sizeof past, TOOL "%s of %s needs more than %zu bytes of stack\n", call_names[q->call], label, left);
    if (pthread_attr_init(&attributes) != 0 || pthread_attr_setstack(&attributes, lowest, thread_bytes) != 0 ||
        pthread_create(&thread, &attributes, call, q) != 0 || pthread_join(thread, NULL) != 0) {
        fail("there is no thread");
    }
    pthread_attr_destroy(&attributes);
    if (q->from < (uintptr_t)lowest || q->from - (uintptr_t)lowest + 64 < left) {
        fail("the calling frame is not where it should be");
    }
}

/* Files and stored cases. */

static uint8_t *whole(const char *name, size_t *length) {
    FILE *file = fopen(name, "rb");
    if (file == NULL || fseek(file, 0, SEEK_END) != 0) {
        fail("%s cannot be read", name);
    }
    long end = ftell(file);
    rewind(file);
    uint8_t *bytes = allocated(end < 0 ? 0 : (size_t)end);
    if (end < 0 || fread(bytes, 1, (size_t)end, file) != (size_t)end) {
        fail("%s cannot be read", name);
    }
    fclose(file);
    bytes[end] = 0;
    *length = (size_t)end;
    return bytes;
}

static uint32_t word(const uint8_t *b) {
    return b[0] | (uint32_t)b[1] << 8 | (uint32_t)b[2] << 16 | (uint32_t)b[3] << 24;
}

/* A case as vectors/README.md has it. */
enum { CALL, ROW, OUTPUT_LENGTH, DETAIL_LENGTH, IMAGE_LENGTH, ANSWER, OUTPUT_WRITTEN = 10, DETAIL_WRITTEN, HEAD };
struct stored {
    const char *label;
    uint32_t head[HEAD];
    const uint8_t *image, *output, *detail;
};

/* The next bytes of the file of cases. */
static const uint8_t *take(const uint8_t **rest, size_t *length, size_t bytes) {
    if (*length < bytes) {
        fail("the file of cases is cut short");
    }
    const uint8_t *taken = *rest;
    *rest += bytes, *length -= bytes;
    return taken;
}

static struct stored *stored_cases(const char *cases, const char *labels, size_t *count) {
    size_t length, labels_length;
    const uint8_t *rest = whole(cases, &length);
    char *label = (char *)whole(labels, &labels_length);
    *count = word(take(&rest, &length, 4));
    struct stored *all = allocated(*count * sizeof *all);
    for (struct stored *c = all; c < all + *count; c++) {
        const uint8_t *head = take(&rest, &length, 4 * HEAD);
        for (int i = 0; i < HEAD; i++) {
            c->head[i] = word(head + 4 * i);
        }
        c->image = take(&rest, &length, c->head[IMAGE_LENGTH]);
        c->output = take(&rest, &length, c->head[OUTPUT_WRITTEN]);
        c->detail = take(&rest, &length, c->head[DETAIL_WRITTEN]);
        char *end = strchr(label, '\n');
        if (end == NULL || c->head[CALL] >= READABLE || c->head[OUTPUT_WRITTEN] > c->head[OUTPUT_LENGTH] ||
            c->head[DETAIL_WRITTEN] > c->head[DETAIL_LENGTH]) {
            fail("%s and %s are no cases with their labels", cases, labels);
        }
        c->label = label;
        *end = 0;
        label = end + 1;
    }
    if (length != 0 || *label != 0) {
        fail("%s and %s are no cases with their labels", cases, labels);
    }
    return all;
}

/* The case's own call, its buffers filled as for a replay. */
static struct question own_call(const struct stored *c) {
    struct question q = {.call = (enum call)c->head[CALL], .row = c->head[ROW], .image = c->image};
    q.image_length = c->head[IMAGE_LENGTH];
    q.output_length = c->head[OUTPUT_LENGTH];
    q.detail_length = c->head[DETAIL_LENGTH];
    q.output = memset(allocated(q.output_length), 170, q.output_length);
    q.detail = memset(allocated(q.detail_length), 85, q.detail_length);
    return q;
}

static void give_back(struct question *q) {
    free(q->output);
    free(q->detail);
}

/* Needs. */

/* Paint tells its place, so that paint which a call copies to another place counts as written. */
static uint64_t paint(const uint64_t *at) {
    return (uint64_t)(uintptr_t)at * UINT64_C(0x9E3779B97F4A7C15);
}

static uint64_t *painted_end(void) {
    return (uint64_t *)(void *)(lowest + PAINTED_BYTES);
}

static void paint_from(uint64_t *at) {
    for (; at < painted_end(); at++) {
        *at = paint(at);
    }
}

struct need {
    enum call call;
    size_t bytes;
    const char *label;
};
static struct need *needs;
static size_t needs_count;

/* Asks on a painted stack, and paints it anew. */
static void measure(struct question *q, const char *label) {
    ask(q, label);
    uint64_t *at = (uint64_t *)(void *)lowest;
    while (at < painted_end() && *at == paint(at)) {
        at++;
    }
    paint_from(at);
    needs = realloc(needs, (needs_count + 1) * sizeof *needs);
    if (needs == NULL) {
        fail("no memory");
    }
    size_t bytes = (uintptr_t)at < q->from ? q->from - (uintptr_t)at : 0;
    needs[needs_count++] = (struct need){q->call, bytes, label};
}

static void start_measuring(void) {
    make_stack(PAINTED_BYTES);
    paint_from((uint64_t *)(void *)lowest);
}

static int by_call_need_label(const void *one, const void *other) {
    const struct need *a = one, *b = other;
    if (a->call != b->call) {
        return a->call < b->call ? -1 : 1;
    }
    if (a->bytes != b->bytes) {
        return a->bytes > b->bytes ? -1 : 1;
    }
    return strcmp(a->label, b->label);
}

/* Tells the needs of each call, the most first, and what is left of the documented size. */
static void tell(size_t told) {
    size_t most = 0;
    qsort(needs, needs_count, sizeof *needs, by_call_need_label);
    for (size_t start = 0, end; start < needs_count; start = end) {
        for (end = start; end < needs_count && needs[end].call == needs[start].call; end++) {
        }
        printf(TOOL "%s: asked %zu times, median %zu bytes, most %zu: %s\n", call_names[needs[start].call], end - start,
               needs[(start + end) / 2].bytes, needs[start].bytes, needs[start].label);
        for (size_t i = start; i < end && i - start < told; i++) {
            printf("%10zu %s\n", needs[i].bytes, needs[i].label);
        }
        most = needs[start].bytes > most ? needs[start].bytes : most;
    }
    long rest = FRUSCALITU_STACK_BYTES - (long)most;
    printf(TOOL "at most %zu bytes; documented %d, %s %ld\n", most, FRUSCALITU_STACK_BYTES,
           rest < 0 ? "too few by" : "left", labs(rest));
}

static void measure_stored(const char *cases, const char *labels) {
    size_t count;
    const struct stored *all = stored_cases(cases, labels, &count);
    for (const struct stored *c = all; c < all + count; c++) {
        struct question q = own_call(c);
        measure(&q, c->label);
        q.call = READABLE;
        measure(&q, c->label);
        give_back(&q);
    }
}

/* Every definition row of an image, by both calls; of what has no rows the first. */
static void measure_image(const char *name) {
    size_t length;
    const uint8_t *image = whole(name, &length);
    size_t definitions = length < 24 ? length : word(image + length - 12);
    size_t rows = length < 24 || definitions > length - 24 ? 0 : (length - 24 - definitions) / 8;
    struct question q = {.image = image, .image_length = length, .output_length = OUTPUT_ROOM,
                         .detail_length = FRUSCALITU_DETAIL_BYTES};
    q.output = allocated(q.output_length);
    q.detail = allocated(q.detail_length);
    rows = rows > MOST_ROWS ? MOST_ROWS : rows;
    for (q.row = 0; q.row == 0 || q.row < rows; q.row++) {
        char *label = allocated(strlen(name) + 20);
        sprintf(label, "%s, row %" PRIu32, name, q.row);
        q.call = PROJECT_IMPL;
        measure(&q, label);
        q.call = EXPECTED_SIGNATURES;
        measure(&q, label);
    }
    q.call = READABLE;
    measure(&q, name);
    give_back(&q);
}

/* The test. */

/* Whether so many bytes are what was written, then the fill. */
static bool as_stored(const uint8_t *found, size_t length, const uint8_t *written, size_t written_length, uint8_t fill) {
    for (size_t i = 0; i < length; i++) {
        if (found[i] != (i < written_length ? written[i] : fill)) {
            return false;
        }
    }
    return true;
}

/* Whether the case's own call, and readable of its image, answer as stored. */
static bool answered(const struct stored *c) {
    struct question q = own_call(c);
    ask(&q, c->label);
    uint32_t number = c->head[ANSWER];
    bool same = q.result == number && memcmp(q.answer, c->head + ANSWER, sizeof q.answer) == 0 &&
                as_stored(q.output, q.output_length, c->output, c->head[OUTPUT_WRITTEN], 170) &&
                as_stored(q.detail, q.detail_length, c->detail, c->head[DETAIL_WRITTEN], 85);
    q.call = READABLE;
    ask(&q, c->label);
    /* 1 is answered before the image is read, so it does not tell. */
    same = same && (number == 1 || q.result == (number != 2));
    give_back(&q);
    if (!same) {
        fprintf(stderr, TOOL "%s of %s is not answered as stored\n", call_names[c->head[CALL]], c->label);
    }
    return same;
}

static int test(const char *cases, const char *labels, size_t bytes) {
    size_t count, wrong = 0;
    const struct stored *all = stored_cases(cases, labels, &count);
    make_stack(bytes);
    for (const struct stored *c = all; c < all + count; c++) {
        wrong += !answered(c);
    }
    if (wrong > 0 || count == 0) {
        fprintf(stderr, TOOL "%zu of %zu cases on %zu bytes are not answered as stored\n", wrong, count, bytes);
        return 1;
    }
    printf(TOOL "%zu cases on %zu bytes: all answered as stored\n", count, bytes);
    return 0;
}

int main(int argc, char **argv) {
    const char *form = argc > 1 ? argv[1] : "";
    if (strcmp(form, "test") == 0 && (argc == 4 || argc == 5)) {
        return test(argv[2], argv[3], argc == 5 ? strtoul(argv[4], NULL, 10) : FRUSCALITU_STACK_BYTES);
    }
    bool all = strcmp(form, "all") == 0;
    start_measuring();
    if ((all || strcmp(form, "measure") == 0) && argc == 4) {
        measure_stored(argv[2], argv[3]);
    } else if (strcmp(form, "files") == 0 && argc > 2) {
        for (int i = 2; i < argc; i++) {
            measure_image(argv[i]);
        }
    } else {
        fail("the forms are in tools/stack.c");
    }
    tell(all ? SIZE_MAX : TOLD);
    return 0;
}
