/* VeGen as a library of C: crates/vegen_c. docs/c-interface.md tells of it, and of what has to be linked.
 *
 * What holds for every call:
 *
 * - Each pointer is not null, not even where the count beside it is 0, and points to as many bytes or
 *   numbers as the count says, for the whole call. A call keeps nothing that it was lent.
 * - Nothing that a call writes overlaps anything else that it is lent: `out`, `*library` and `*report` lie
 *   apart from each other and from the texts, the memory and the numbers.
 * - A handle is lent to one call at a time, on the thread that made it.
 * - `malloc`, `realloc` and `free` of the program are of one allocator, and align a block to each power of two
 *   up to 16 that divides its size. No call is made from a signal handler or from the forked child of a
 *   process with threads.
 * - A text is bytes, with no 0 byte at its end.
 * - Each call gives a status, one of the numbers below, and fills `*report`; after 12 and 21 the report says
 *   nothing.
 */
#ifndef VEGEN_H
#define VEGEN_H

#include <stdbool.h>
#include <stddef.h>
#include <stdint.h>

#ifdef __cplusplus
extern "C" {
#endif

/* A library of instructions: the entries of an instruction file, and their descriptions. It begins as
 * VEGEN_NO_LIBRARY. C neither writes, copies nor compares its fields afterwards, and hands it to
 * vegen_library_free once it is done with: what it keeps is memory of malloc. */
struct vegen_library {
    void *at;
    size_t full;
};

#define VEGEN_NO_LIBRARY {NULL, 0}

/* What is told of a request. */
struct vegen_report {
    /* The bytes of the answer, or of the text of the first difference (status 13). Also where they do not fit
     * into `out` (status 20): a second call with so much room gives them. */
    size_t count;
    /* Where a text is refused (status 3, 4 or 5): the number of the refusal, from 1, as the first word of the
     * program's line on it, and the line and the column in bytes that it names, both from 1. Else zeros. */
    uint32_t number;
    uint32_t line;
    uint32_t column;
};

/* The statuses: 0 to 13 are those of the program (docs/commands.md). */
enum vegen_status {
    VEGEN_OK = 0,
    VEGEN_USAGE = 2,                /* a bit of no extension */
    VEGEN_INSTRUCTIONS_REFUSED = 3, /* the instruction file has a fault */
    VEGEN_KERNEL_REFUSED = 4,       /* the kernel or the loop has a fault */
    VEGEN_PROGRAM_REFUSED = 5,      /* the program has a fault */
    VEGEN_BINDINGS_REFUSED = 9,     /* the places and values are not those of the parameters */
    VEGEN_TRAP = 10,                /* an access outside the memory */
    VEGEN_TOO_LARGE = 11,           /* a text or a memory has more bytes than its limit */
    VEGEN_NO_MEMORY = 12,           /* want of memory, or a bound of the code (docs/limits.md) */
    VEGEN_DIFFERS = 13,             /* the program differs from the kernel */
    VEGEN_ROOM_TOO_SMALL = 20,      /* the answer is longer than the room for it */
    VEGEN_NOTHING_KEPT = 21         /* the handle keeps no library */
};

/* The extensions, as bits of a set. */
enum vegen_extension {
    VEGEN_SSE2 = 1,
    VEGEN_SSE3 = 2,
    VEGEN_SSSE3 = 4,
    VEGEN_SSE4_1 = 8,
    VEGEN_SSE4_2 = 16,
    VEGEN_AVX = 32,
    VEGEN_AVX2 = 64,
    VEGEN_AVX_VNNI = 128,
    VEGEN_AVX512F = 256,
    VEGEN_AVX512BW = 512,
    VEGEN_ALL_EXTENSIONS = 1023
};

/* Sizes in bytes: the most that a text or a memory may have. */
#define VEGEN_INSTRUCTIONS_LIMIT 1048576
#define VEGEN_KERNEL_LIMIT 262144
#define VEGEN_PROGRAM_LIMIT 4194304
#define VEGEN_MEMORY_LIMIT 16777216

/* The width of the search where the program is given none. */
#define VEGEN_USUAL_WIDTH 32

/* Reads an instruction file: `n` bytes at `text`. What the handle kept before is freed. VEGEN_OK, and the
 * handle keeps the entries of the file, of which programs that are compiled may call those whose extension is
 * in the set `extensions`; as `--with` for each of them. Else the handle keeps nothing: VEGEN_USAGE,
 * VEGEN_INSTRUCTIONS_REFUSED, VEGEN_TOO_LARGE, VEGEN_NO_MEMORY. */
uint32_t vegen_library_read(const uint8_t *text, size_t n, uint32_t extensions, struct vegen_library *library,
                            struct vegen_report *report);

/* Compiles the kernel or the counted loop of `n` bytes at `text`, and lays the text of its program into the
 * front of the `room` bytes at `out`: what `vegen compile` writes of the two files, byte for byte. The search
 * keeps `width` plans of each size (`--width`; the program takes 1 to 4,096, usually VEGEN_USUAL_WIDTH). With
 * `more` also wide and fed plans are searched (`--more`), with `guard` the program has two sides and checks
 * that choose between them (`--guard`; a loop is refused without `more`, and with it each of its blocks has
 * them).
 * VEGEN_OK, VEGEN_KERNEL_REFUSED, VEGEN_TOO_LARGE, VEGEN_NO_MEMORY, VEGEN_ROOM_TOO_SMALL, VEGEN_NOTHING_KEPT. */
uint32_t vegen_compile(struct vegen_library *library, const uint8_t *text, size_t n, uint32_t width, bool more,
                       bool guard, uint8_t *out, size_t room, struct vegen_report *report);

/* Lays the lines on the plan of a kernel or a loop into `out`: what `vegen explain` writes. The statuses are
 * those of vegen_compile. */
uint32_t vegen_explain(struct vegen_library *library, const uint8_t *text, size_t n, uint32_t width, bool more,
                       uint8_t *out, size_t room, struct vegen_report *report);

/* Whether the program of `program_n` bytes at `program` means the kernel of `kernel_n` bytes at `kernel`, as
 * `vegen check`: VEGEN_OK, and `out` begins with `same` and a line feed; VEGEN_DIFFERS, and `out` begins with
 * the text of the first difference (`docs/checking.md`). The kernel is no loop, the program no guarded and
 * no looped text and no guarded loop.
 * Else VEGEN_KERNEL_REFUSED, VEGEN_PROGRAM_REFUSED, VEGEN_TOO_LARGE, VEGEN_NO_MEMORY, VEGEN_ROOM_TOO_SMALL,
 * VEGEN_NOTHING_KEPT. */
uint32_t vegen_check(struct vegen_library *library, const uint8_t *kernel, size_t kernel_n,
                     const uint8_t *program, size_t program_n, uint8_t *out, size_t room,
                     struct vegen_report *report);

/* Lays what a kernel or a loop leaves of the `memory_n` bytes at `memory` into `out`, as many bytes: what
 * `vegen eval` writes. There is one place for each pointer, in bytes from the start of the memory, and one
 * value for each integer, below 2 to its width, both in the order of the parameters.
 * VEGEN_OK, VEGEN_KERNEL_REFUSED, VEGEN_BINDINGS_REFUSED (also where the turns of a loop move a pointer past
 * 2^64 - 1), VEGEN_TRAP, VEGEN_TOO_LARGE, VEGEN_NO_MEMORY, VEGEN_ROOM_TOO_SMALL. */
uint32_t vegen_eval(const uint8_t *kernel, size_t kernel_n, const uint8_t *memory, size_t memory_n,
                    const uint64_t *places, size_t places_n, const uint64_t *values, size_t values_n,
                    uint8_t *out, size_t room, struct vegen_report *report);

/* Lays what a program, a guarded or a looped text or a guarded loop leaves of a memory into `out`: what
 * `vegen run` writes. It may call every entry of the library, whatever its extension. The statuses are those of vegen_eval, but
 * VEGEN_PROGRAM_REFUSED where the text is refused, and VEGEN_NOTHING_KEPT. */
uint32_t vegen_run(struct vegen_library *library, const uint8_t *program, size_t program_n,
                   const uint8_t *memory, size_t memory_n, const uint64_t *places, size_t places_n,
                   const uint64_t *values, size_t values_n, uint8_t *out, size_t room,
                   struct vegen_report *report);

/* Frees what the handle keeps; then it keeps nothing, and may be read into anew. */
void vegen_library_free(struct vegen_library *library);

#ifdef __cplusplus
}
#endif

#endif
