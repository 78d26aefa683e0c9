/* Reads a library of instructions once, compiles each kernel that is named, and prints what its program costs and
 * how long that took.
 *
 * usage: compile_all [--more] [--write FOLDER] LIBRARY KERNEL.. */
#include "vegen.h"

#include <stdio.h>
#include <stdlib.h>
#include <string.h>
#include <time.h>

/* Bytes, of malloc. */
struct bytes {
    uint8_t *at;
    size_t count;
};

static void fail(const char *what, const char *name)
{
    fprintf(stderr, "compile_all: %s: %s\n", what, name);
    exit(2);
}

static struct bytes read_file(const char *name)
{
    struct bytes text = {malloc(VEGEN_INSTRUCTIONS_LIMIT + 1), 0};
    FILE *file = fopen(name, "rb");
    if (file == NULL || text.at == NULL)
        fail("cannot read", name);
    text.count = fread(text.at, 1, VEGEN_INSTRUCTIONS_LIMIT + 1, file);
    fclose(file);
    return text;
}

static void write_file(const char *folder, const char *kernel, const uint8_t *text, size_t count)
{
    char name[4096];
    const char *base = strrchr(kernel, '/');
    snprintf(name, sizeof name, "%s/%s", folder, base != NULL ? base + 1 : kernel);
    FILE *file = fopen(name, "wb");
    if (file == NULL || fwrite(text, 1, count, file) != count || fclose(file) != 0)
        fail("cannot write", name);
}

static double milliseconds(void)
{
    struct timespec now;
    timespec_get(&now, TIME_UTC);
    return (double)now.tv_sec * 1e3 + (double)now.tv_nsec / 1e6;
}

/* What stands behind the last `end cost ` of a text. */
static int cost_of(const uint8_t *text, size_t count)
{
    static const char mark[] = "end cost ";
    for (size_t at = count; at-- > 0;)
        if (count - at >= sizeof mark && memcmp(text + at, mark, sizeof mark - 1) == 0)
            return atoi((const char *)text + at + sizeof mark - 1);
    return -1;
}

/* Compiles a kernel into room that grows where it is too small. */
static uint32_t compile(struct vegen_library *library, const struct bytes *kernel, bool more, struct bytes *room,
                        struct vegen_report *report)
{
    uint32_t status = vegen_compile(library, kernel->at, kernel->count, VEGEN_USUAL_WIDTH, more, false, room->at,
                                    room->count, report);
    if (status != VEGEN_ROOM_TOO_SMALL)
        return status;
    free(room->at);
    *room = (struct bytes){malloc(report->count), report->count};
    if (room->at == NULL)
        return VEGEN_NO_MEMORY;
    return vegen_compile(library, kernel->at, kernel->count, VEGEN_USUAL_WIDTH, more, false, room->at, room->count,
                         report);
}

int main(int count, char **words)
{
    bool more = false;
    const char *folder = NULL;
    int first = 1;
    for (; first < count && strncmp(words[first], "--", 2) == 0; first++) {
        if (strcmp(words[first], "--more") == 0)
            more = true;
        else if (strcmp(words[first], "--write") == 0 && first + 1 < count)
            folder = words[++first];
        else
            fail("no option", words[first]);
    }
    if (count - first < 2)
        fail("usage", "compile_all [--more] [--write FOLDER] LIBRARY KERNEL..");

    struct vegen_library library = VEGEN_NO_LIBRARY;
    struct vegen_report report;
    struct bytes text = read_file(words[first]);
    double began = milliseconds();
    uint32_t status = vegen_library_read(text.at, text.count, VEGEN_ALL_EXTENSIONS, &library, &report);
    free(text.at);
    if (status != VEGEN_OK) {
        fprintf(stderr, "%s: status %u, fault %u at %u:%u\n", words[first], status, report.number, report.line,
                report.column);
        return 1;
    }
    printf("%-40s %8.1f ms\n", words[first], milliseconds() - began);

    struct bytes room = {malloc(4096), 4096};
    double sum = 0;
    int refused = 0;
    for (int i = first + 1; i < count && room.at != NULL; i++) {
        struct bytes kernel = read_file(words[i]);
        began = milliseconds();
        status = compile(&library, &kernel, more, &room, &report);
        double took = milliseconds() - began;
        sum += took;
        if (status == VEGEN_OK) {
            printf("%-40s %8.1f ms  cost %d\n", words[i], took, cost_of(room.at, report.count));
            if (folder != NULL)
                write_file(folder, words[i], room.at, report.count);
        } else {
            refused++;
            printf("%-40s status %u, fault %u at %u:%u\n", words[i], status, report.number, report.line,
                   report.column);
        }
        free(kernel.at);
    }
    printf("%d kernels, in the mean %.1f ms\n", count - first - 1, sum / (count - first - 1));
    free(room.at);
    vegen_library_free(&library);
    return refused != 0;
}
