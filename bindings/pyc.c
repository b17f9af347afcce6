/* What stands between C and the proved exports: it looks at pointers and lengths. No proof is about this file. */
#include "pyc.h"

#include <stdlib.h>

/* The exports of crates/pyc_c. They want slices that are not null, and do not overlap what is written. */
uint32_t pyc_run(uint32_t output, uint32_t mode, uint32_t level,
                 const uint8_t *path, size_t path_length,
                 const uint8_t *input, size_t input_length,
                 uint8_t *text, size_t room, size_t *count);
uint32_t pyc_judge(const uint8_t *file, size_t file_length,
                   uint32_t *places, size_t room, size_t *count,
                   uint32_t *unit, uint32_t *kind, uint64_t *offset);
uint32_t pyc_tell(const uint8_t *script, size_t script_length,
                  const uint32_t *places, size_t places_length,
                  const uint8_t *file, size_t file_length,
                  uint8_t *text, size_t room, size_t *count);

/* The outputs of pyc_run that pyc_compile has not, a number that none has, and one that stands for pyc_tell. */
enum { UNPACKED = 2, NAMED = 3, NO_OUTPUT = 4, TOLD = 5 };

/* The places of a path that a first try has room for. */
enum { FIRST_PLACES = 64 };

/* What a call hands over. With TOLD the word is a script, and else a path; there are places with TOLD alone. */
struct asked {
    uint32_t output, mode, level;
    const char *word;
    size_t word_length;
    const char *input;
    size_t input_length;
    const uint32_t *places;
    size_t places_length;
};

struct aligned_flaw {
    char before;
    struct pyc_flaw flaw;
};

/* Where a slice of nothing lies. */
static uint8_t nowhere;
static uint32_t no_place;

static int is_slice(const void *at, size_t length)
{
    return length == 0 || (at != NULL && length <= PTRDIFF_MAX && length - 1 <= UINTPTR_MAX - (uintptr_t)at);
}

static int overlaps(const void *at, size_t length, const void *other, size_t other_length)
{
    uintptr_t from = (uintptr_t)at, other_from = (uintptr_t)other;

    return length != 0 && other_length != 0 && (from - other_from < other_length || other_from - from < length);
}

static int is_count(const size_t *count)
{
    return count != NULL && (uintptr_t)count % sizeof *count == 0;
}

static int is_places(const uint32_t *places, size_t length)
{
    return length == 0
        || (length <= PTRDIFF_MAX / sizeof *places && is_slice(places, length * sizeof *places)
            && (uintptr_t)places % sizeof *places == 0);
}

/* Whether the word, the places and the input are slices, none of which holds what is written there. */
static int is_asked(const struct asked *asked, const void *written, size_t length)
{
    return is_slice(asked->word, asked->word_length) && is_slice(asked->input, asked->input_length)
        && is_places(asked->places, asked->places_length)
        && !overlaps(written, length, asked->word, asked->word_length)
        && !overlaps(written, length, asked->input, asked->input_length)
        && !overlaps(written, length, asked->places, asked->places_length * sizeof *asked->places);
}

/* The call of the proved export, once all is looked at. */
static uint32_t call(const struct asked *asked, uint8_t *text, size_t room, size_t *count)
{
    const uint8_t *word = asked->word_length ? (const uint8_t *)asked->word : &nowhere;
    const uint8_t *input = asked->input_length ? (const uint8_t *)asked->input : &nowhere;

    if (asked->output == TOLD)
        return pyc_tell(word, asked->word_length,
                        asked->places_length ? asked->places : &no_place, asked->places_length,
                        input, asked->input_length, text, room, count);
    return pyc_run(asked->output, asked->mode, asked->level,
                   word, asked->word_length, input, asked->input_length, text, room, count);
}

static uint32_t write_into(const struct asked *asked, char *text, size_t room, size_t *count)
{
    if (!is_count(count) || !is_slice(text, room) || overlaps(count, sizeof *count, text, room)
        || !is_asked(asked, count, sizeof *count) || !is_asked(asked, text, room))
        return PYC_ARGUMENT;
    return call(asked, room ? (uint8_t *)text : &nowhere, room, count);
}

static uint32_t write_text(const struct asked *asked, char **text, size_t *count)
{
    size_t length = asked->input_length, room;

    if (text == NULL || (uintptr_t)text % sizeof *text != 0 || !is_count(count)
        || overlaps(text, sizeof *text, count, sizeof *count)
        || !is_asked(asked, text, sizeof *text) || !is_asked(asked, count, sizeof *count))
        return PYC_ARGUMENT;
    *text = NULL;
    *count = 0;
    /* Most listings have one to three times the bytes of their rows; for others the room grows. */
    for (room = length < SIZE_MAX / 8 ? 4 * length + 4096 : SIZE_MAX / 2;; room *= 2) {
        char *made = malloc(room);
        uint32_t status;

        if (made == NULL)
            return PYC_MEMORY;
        status = write_into(asked, made, room - 1, count);
        if (status != PYC_NO_ROOM && *count != 0) {
            made[*count] = 0;
            *text = made;
            return status;
        }
        free(made);
        if (status != PYC_NO_ROOM)
            return status;
        if (room > PTRDIFF_MAX / 2)
            return PYC_MEMORY;
    }
}

static struct asked asked_of(uint32_t output, uint32_t mode, uint32_t level,
                            const char *path, size_t path_length,
                            const char *rows, size_t rows_length)
{
    struct asked asked = {output, mode, level, path, path_length, rows, rows_length, NULL, 0};

    return asked;
}

static struct asked told(const char *script, size_t script_length,
                         const uint32_t *places, size_t places_length,
                         const char *file, size_t file_length)
{
    struct asked asked = {TOLD, 0, 0, script, script_length, file, file_length, places, places_length};

    return asked;
}

static struct asked compiled(uint32_t output, uint32_t mode, uint32_t level,
                             const char *path, size_t path_length,
                             const char *rows, size_t rows_length)
{
    return asked_of(output <= PYC_FILE ? output : NO_OUTPUT, mode, level, path, path_length, rows, rows_length);
}

uint32_t pyc_compile_into(uint32_t output, uint32_t mode, uint32_t level,
                          const char *path, size_t path_length,
                          const char *rows, size_t rows_length,
                          char *text, size_t room, size_t *count)
{
    struct asked asked = compiled(output, mode, level, path, path_length, rows, rows_length);

    return write_into(&asked, text, room, count);
}

uint32_t pyc_compile(uint32_t output, uint32_t mode, uint32_t level,
                     const char *path, size_t path_length,
                     const char *rows, size_t rows_length,
                     char **text, size_t *count)
{
    struct asked asked = compiled(output, mode, level, path, path_length, rows, rows_length);

    return write_text(&asked, text, count);
}

uint32_t pyc_unpack_into(const char *file, size_t file_length, char *text, size_t room, size_t *count)
{
    struct asked asked = asked_of(UNPACKED, 0, 0, NULL, 0, file, file_length);

    return write_into(&asked, text, room, count);
}

uint32_t pyc_unpack(const char *file, size_t file_length, char **text, size_t *count)
{
    struct asked asked = asked_of(UNPACKED, 0, 0, NULL, 0, file, file_length);

    return write_text(&asked, text, count);
}

uint32_t pyc_names_into(const char *path, size_t path_length,
                        const char *rows, size_t rows_length,
                        char *text, size_t room, size_t *count)
{
    struct asked asked = asked_of(NAMED, 0, 0, path, path_length, rows, rows_length);

    return write_into(&asked, text, room, count);
}

uint32_t pyc_names(const char *path, size_t path_length,
                   const char *rows, size_t rows_length,
                   char **text, size_t *count)
{
    struct asked asked = asked_of(NAMED, 0, 0, path, path_length, rows, rows_length);

    return write_text(&asked, text, count);
}

uint32_t pyc_trace_into(const char *script, size_t script_length,
                        const uint32_t *places, size_t places_length,
                        const char *file, size_t file_length,
                        char *text, size_t room, size_t *count)
{
    struct asked asked = told(script, script_length, places, places_length, file, file_length);

    return write_into(&asked, text, room, count);
}

uint32_t pyc_trace(const char *script, size_t script_length,
                   const uint32_t *places, size_t places_length,
                   const char *file, size_t file_length,
                   char **text, size_t *count)
{
    struct asked asked = told(script, script_length, places, places_length, file, file_length);

    return write_text(&asked, text, count);
}

uint32_t pyc_verify(const char *file, size_t file_length, struct pyc_flaw *flaw)
{
    static const struct pyc_flaw none;
    size_t room;

    if (flaw == NULL || (uintptr_t)flaw % offsetof(struct aligned_flaw, flaw) != 0
        || !is_slice(file, file_length) || overlaps(flaw, sizeof *flaw, file, file_length))
        return PYC_ARGUMENT;
    *flaw = none;
    for (room = FIRST_PLACES;; room *= 2) {
        uint32_t *places = malloc(room * sizeof *places);
        uint32_t status;

        if (places == NULL)
            return PYC_MEMORY;
        status = pyc_judge(file_length ? (const uint8_t *)file : &nowhere, file_length,
                           places, room, &flaw->path_length, &flaw->unit, &flaw->kind, &flaw->offset);
        if (status == PYC_REFUSED && flaw->path_length != 0) {
            flaw->path = places;
            return status;
        }
        free(places);
        if (status != PYC_NO_ROOM)
            return status;
        if (room > PTRDIFF_MAX / sizeof *places / 2)
            return PYC_MEMORY;
    }
}

const char *pyc_flaw_text(uint32_t kind)
{
    switch (kind) {
    case PYC_NO_FLAW:
        return "no flaw";
    case PYC_TOO_DEEP:
        return "codes nest too deep";
    case PYC_TOO_MANY_UNITS:
        return "too many units";
    case PYC_PLACE_OUTSIDE:
        return "the next instruction is outside the code";
    case PYC_OPERAND_OUTSIDE:
        return "the operand is outside its range";
    case PYC_HEIGHT_OUTSIDE:
        return "the height of the stack is outside its range";
    case PYC_UNEVEN_HEIGHTS:
        return "two walks have different heights of the stack";
    case PYC_BLOCK_MISMATCH:
        return "the block is missing, or two walks have different blocks";
    default:
        return "no such kind";
    }
}

void pyc_free(void *memory)
{
    free(memory);
}
