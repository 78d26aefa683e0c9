/* Refuses the memory that the calls of include/vegen.h ask for, one request after the other: tools/try-c-interface.
 *
 * With a library of no entries, a loop is compiled with checks and its guarded loop is run. After each number the status has to be
 * that of the whole run or 12, and no block is left once the library is freed. One line tells of each. */
#include <stdbool.h>
#include <stdio.h>
#include <stdlib.h>
#include <string.h>

#include "vegen.h"

struct rattle_tried {
    bool ok;
    void *block;
};

static unsigned long done, refused;
static long blocks;

static struct rattle_tried none(void)
{
    static unsigned char nowhere;
    return (struct rattle_tried){false, &nowhere};
}

struct rattle_tried rattle_alloc(size_t size, size_t align)
{
    if (++done == refused)
        return none();
    void *block = malloc(size != 0 ? size : align);
    if (block == NULL)
        return none();
    blocks++;
    return (struct rattle_tried){true, block};
}

struct rattle_tried rattle_realloc(void *block, size_t kept, size_t size, size_t align)
{
    (void)kept;
    if (++done == refused)
        return none();
    void *made = realloc(block, size != 0 ? size : align);
    return made == NULL ? none() : (struct rattle_tried){true, made};
}

void rattle_dealloc(void *block)
{
    blocks--;
    free(block);
}

static const char LOOP[] = "loop bytes(d: ptr, p: ptr, n: i8) times n step d 1, p 1 { store8(d + 0, load8(p + 0)); }";
static uint8_t text[65536], left[64];
static size_t length;

/* The status of the first call that gives another than 0; what is written is compared with `wanted`. */
static uint32_t run(bool compiles, const uint8_t *wanted, bool *same)
{
    static const uint8_t memory[64] = {1, 2, 3, 4, 5, 6, 7, 8, 9};
    static const uint64_t places[2] = {40, 0}, values[1] = {20};
    static uint8_t out[65536];
    struct vegen_library library = VEGEN_NO_LIBRARY;
    struct vegen_report report;
    uint32_t status = vegen_library_read((const uint8_t *)"", 0, VEGEN_ALL_EXTENSIONS, &library, &report);
    if (status == VEGEN_OK && compiles)
        status = vegen_compile(&library, (const uint8_t *)LOOP, sizeof LOOP - 1, 1, true, true, out, sizeof out, &report);
    else if (status == VEGEN_OK)
        status = vegen_run(&library, text, length, memory, sizeof memory, places, 2, values, 1, out, sizeof left, &report);
    *same = status == VEGEN_OK && (wanted == NULL || memcmp(out, wanted, report.count) == 0);
    if (wanted == NULL && status == VEGEN_OK) {
        memcpy(compiles ? text : left, out, report.count);
        length = compiles ? report.count : length;
    }
    vegen_library_free(&library);
    return status;
}

int main(void)
{
    int wrong = 0;
    for (int compiles = 1; compiles >= 0; compiles--) {
        unsigned long ends[2] = {0, 0};
        bool same;
        done = refused = 0;
        if (run(compiles, NULL, &same) != VEGEN_OK)
            return 2;
        unsigned long total = done;
        for (unsigned long number = 1; number <= total; number++) {
            done = 0, refused = number;
            uint32_t status = run(compiles, compiles ? text : left, &same);
            if (!(status == VEGEN_NO_MEMORY || (status == VEGEN_OK && same)) || blocks != 0) {
                printf("%s: request %lu: status %u, %ld blocks are left\n", compiles ? "compile" : "run", number, (unsigned)status, blocks);
                wrong = 1, blocks = 0;
            }
            ends[status == VEGEN_NO_MEMORY]++;
        }
        printf("%s: each of %lu requests refused: status 0 %lu times, 12 %lu times\n", compiles ? "compile" : "run", total, ends[0], ends[1]);
        fflush(stdout);
    }
    return wrong;
}
