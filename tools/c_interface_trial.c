/* What tools/try-c-interface builds: it reads requests, a line each, and makes the calls of include/vegen.h. Of each
 * it writes a line `STATUS COUNT NUMBER LINE COLUMN`, and after the statuses 0 and 13 the bytes of the answer.
 *
 *   read EXTENSIONS FILE          compile WIDTH MORE GUARD ROOM FILE     explain WIDTH MORE ROOM FILE
 *   check ROOM KERNEL PROGRAM     eval ROOM KERNEL MEMORY PLACES VALUES  run ROOM PROGRAM MEMORY PLACES VALUES
 *   again N WIDTH MORE FILE       free
 *
 * ROOM is a number of bytes, or `-` for as many as are wanted. PLACES and VALUES are numbers with commas between them,
 * or `-` for none. `again` compiles a file N times, and its answer is the last one. Each text and each room is a block
 * of its own size, so that what goes past one is seen. */
#include "vegen.h"

#include <inttypes.h>
#include <stdio.h>
#include <stdlib.h>
#include <string.h>

struct bytes {
    uint8_t *at;
    size_t count;
};

struct numbers {
    uint64_t at[16];
    size_t count;
};

static struct vegen_library library = VEGEN_NO_LIBRARY;
static struct vegen_report report;

static struct bytes block(size_t count)
{
    struct bytes made = {malloc(count != 0 ? count : 1), count};
    if (made.at == NULL)
        exit(2);
    return made;
}

static struct bytes read_file(const char *name)
{
    FILE *file = fopen(name, "rb");
    if (file == NULL) {
        perror(name);
        exit(2);
    }
    fseek(file, 0, SEEK_END);
    struct bytes text = block((size_t)ftell(file));
    rewind(file);
    if (fread(text.at, 1, text.count, file) != text.count)
        exit(2);
    fclose(file);
    return text;
}

static struct numbers read_numbers(char *word)
{
    struct numbers all = {{0}, 0};
    for (char *at = strtok(strcmp(word, "-") == 0 ? NULL : word, ","); at != NULL && all.count < 16;
         at = strtok(NULL, ","))
        all.at[all.count++] = strtoull(at, NULL, 10);
    return all;
}

static void tell(uint32_t status, const struct bytes *out)
{
    printf("%" PRIu32 " %zu %" PRIu32 " %" PRIu32 " %" PRIu32 "\n", status, report.count, report.number, report.line,
           report.column);
    if ((status == VEGEN_OK || status == VEGEN_DIFFERS) && report.count > 0)
        fwrite(out->at, 1, report.count, stdout);
    fflush(stdout);
}

/* One call with this room. */
static uint32_t call(char **words, struct bytes *out)
{
    const char *what = words[0];
    uint32_t status = 99;
    if (strcmp(what, "compile") == 0 || strcmp(what, "explain") == 0) {
        int guards = what[0] == 'c';
        struct bytes text = read_file(words[4 + guards]);
        uint32_t width = (uint32_t)strtoul(words[1], NULL, 10);
        bool more = words[2][0] == '1';
        status = guards ? vegen_compile(&library, text.at, text.count, width, more, words[3][0] == '1', out->at,
                                        out->count, &report)
                        : vegen_explain(&library, text.at, text.count, width, more, out->at, out->count, &report);
        free(text.at);
    } else if (strcmp(what, "check") == 0) {
        struct bytes kernel = read_file(words[2]), program = read_file(words[3]);
        status = vegen_check(&library, kernel.at, kernel.count, program.at, program.count, out->at, out->count, &report);
        free(kernel.at);
        free(program.at);
    } else {
        struct bytes text = read_file(words[2]), memory = read_file(words[3]);
        char places_word[512], values_word[512];
        snprintf(places_word, sizeof places_word, "%s", words[4]);
        snprintf(values_word, sizeof values_word, "%s", words[5]);
        struct numbers places = read_numbers(places_word), values = read_numbers(values_word);
        status = strcmp(what, "eval") == 0
                     ? vegen_eval(text.at, text.count, memory.at, memory.count, places.at, places.count, values.at,
                                  values.count, out->at, out->count, &report)
                     : vegen_run(&library, text.at, text.count, memory.at, memory.count, places.at, places.count,
                                 values.at, values.count, out->at, out->count, &report);
        free(text.at);
        free(memory.at);
    }
    return status;
}

/* The word that says how large the room is. */
static int room_word(const char *what)
{
    return strcmp(what, "compile") == 0 ? 4 : strcmp(what, "explain") == 0 ? 3 : 1;
}

static void request(char **words)
{
    const char *room = words[room_word(words[0])];
    int whole = strcmp(room, "-") == 0;
    struct bytes out = block(whole ? 0 : (size_t)strtoull(room, NULL, 10));
    uint32_t status = call(words, &out);
    if (whole && status == VEGEN_ROOM_TOO_SMALL) {
        free(out.at);
        out = block(report.count);
        status = call(words, &out);
    }
    tell(status, &out);
    free(out.at);
}

static void again(char **words)
{
    struct bytes text = read_file(words[4]), out = block(1 << 20);
    uint32_t status = VEGEN_OK;
    for (long left = strtol(words[1], NULL, 10); left > 0; left--)
        status = vegen_compile(&library, text.at, text.count, (uint32_t)strtoul(words[2], NULL, 10),
                               words[3][0] == '1', false, out.at, out.count, &report);
    tell(status, &out);
    free(text.at);
    free(out.at);
}

int main(void)
{
    static char line[1 << 16];
    while (fgets(line, sizeof line, stdin) != NULL) {
        char *words[8] = {0};
        int count = 0;
        for (char *at = strtok(line, " \n"); at != NULL && count < 8; at = strtok(NULL, " \n"))
            words[count++] = at;
        if (count == 0)
            continue;
        if (strcmp(words[0], "read") == 0) {
            struct bytes text = read_file(words[2]), none = {NULL, 0};
            uint32_t status = vegen_library_read(text.at, text.count, (uint32_t)strtoul(words[1], NULL, 10), &library,
                                                 &report);
            free(text.at);
            tell(status, &none);
        } else if (strcmp(words[0], "free") == 0) {
            vegen_library_free(&library);
        } else if (strcmp(words[0], "again") == 0) {
            again(words);
        } else {
            request(words);
        }
    }
    vegen_library_free(&library);
    return 0;
}
