/* Tries what the library answers to arguments that it refuses, and to a file of code.
 *
 *     test_pyc CODE ROWS.json
 *
 * CODE is a file of code that may be run, which ROWS.json compile to. Each answer that is not the wanted one is a line, and
 * the status is then 1.
 */
#include <stdio.h>
#include <stdlib.h>
#include <string.h>

#include "pyc.h"

static int wrong;

/* Bytes that lie behind whatever a call here writes on, so that a length that is too large is all that is wrong with them. */
static const char *high;

static void wanted(const char *what, uint32_t status, uint32_t answer)
{
    if (answer == status)
        return;
    fprintf(stderr, "%s: %u, and not %u\n", what, (unsigned)answer, (unsigned)status);
    wrong = 1;
}

static void holds(const char *what, int is_so)
{
    if (is_so)
        return;
    fprintf(stderr, "%s: not so\n", what);
    wrong = 1;
}

/* The bytes of a file, with one free byte behind them. */
static char *read_file(const char *name, size_t *length)
{
    FILE *file = fopen(name, "rb");
    long size = file != NULL && fseek(file, 0, SEEK_END) == 0 ? ftell(file) : -1;
    char *bytes = size >= 0 ? malloc((size_t)size + 1) : NULL;

    *length = size >= 0 ? (size_t)size : 0;
    if (bytes != NULL && (fseek(file, 0, SEEK_SET) != 0 || fread(bytes, 1, *length, file) != *length)) {
        free(bytes);
        bytes = NULL;
    }
    if (file != NULL)
        fclose(file);
    return bytes;
}

static void try_unpack(char *code, size_t length)
{
    char *text = code, small[8];
    size_t count = 7;
    union {
        size_t count;
        char bytes[2 * sizeof(size_t)];
    } both;

    wanted("unpack: a null file of one byte", PYC_ARGUMENT, pyc_unpack(NULL, 1, &text, &count));
    wanted("unpack: a null file of no bytes", PYC_INPUT, pyc_unpack(NULL, 0, &text, &count));
    holds("unpack: the line of no bytes", text != NULL && strcmp(text, "input: bad code file at 0\n") == 0);
    pyc_free(text);
    wanted("unpack: a length past the last address", PYC_ARGUMENT, pyc_unpack(code, SIZE_MAX, &text, &count));
    wanted("unpack: a length past PTRDIFF_MAX", PYC_ARGUMENT, pyc_unpack(high, (size_t)PTRDIFF_MAX + 1, &text, &count));
    wanted("unpack: a null text", PYC_ARGUMENT, pyc_unpack(code, length, NULL, &count));
    wanted("unpack: a null count", PYC_ARGUMENT, pyc_unpack(code, length, &text, NULL));
    wanted("unpack: a count in the file", PYC_ARGUMENT, pyc_unpack(both.bytes, sizeof both, &text, &both.count));
    wanted("unpack: the file in the text", PYC_ARGUMENT, pyc_unpack_into(code, length, code, length, &count));
    wanted("unpack: a null text with room", PYC_ARGUMENT, pyc_unpack_into(code, length, NULL, 1, &count));
    memset(small, 'x', sizeof small);
    wanted("unpack: no room", PYC_NO_ROOM, pyc_unpack_into(code, length, small, sizeof small, &count));
    holds("unpack: nothing is written without room", count == 0 && memcmp(small, "xxxxxxxx", sizeof small) == 0);
    wanted("unpack: a file", PYC_DONE, pyc_unpack(code, length, &text, &count));
    holds("unpack: a zero byte follows the listing", text != NULL && strlen(text) == count);
    pyc_free(text);
}

static void try_names(const char *rows, size_t length)
{
    char *text, small[1];
    size_t count;

    wanted("names: a null path of one byte", PYC_ARGUMENT, pyc_names(NULL, 1, rows, length, &text, &count));
    wanted("names: null rows of one byte", PYC_ARGUMENT, pyc_names("m.py", 4, NULL, 1, &text, &count));
    wanted("names: a length of the path past limits", PYC_ARGUMENT, pyc_names("m.py", SIZE_MAX, rows, length, &text, &count));
    wanted("names: a length of the rows past limits", PYC_ARGUMENT, pyc_names("m.py", 4, high, (size_t)PTRDIFF_MAX + 1, &text, &count));
    wanted("names: a null text", PYC_ARGUMENT, pyc_names("m.py", 4, rows, length, NULL, &count));
    wanted("names: a null count", PYC_ARGUMENT, pyc_names("m.py", 4, rows, length, &text, NULL));
    wanted("names: a path that is not UTF-8", PYC_USAGE, pyc_names("\xff", 1, rows, length, &text, &count));
    pyc_free(text);
    wanted("names: a null path of no bytes", PYC_DONE, pyc_names(NULL, 0, rows, length, &text, &count));
    pyc_free(text);
    wanted("names: no rows", PYC_INPUT, pyc_names("m.py", 4, NULL, 0, &text, &count));
    pyc_free(text);
    wanted("names: no room for the line", PYC_NO_ROOM, pyc_names_into("m.py", 4, NULL, 0, small, sizeof small, &count));
}

/* The places of the outermost code are none; the code of ROWS.json has no code at place 4294967295. */
static void try_trace(char *code, size_t length)
{
    union {
        uint32_t places[2];
        char bytes[2 * sizeof(uint32_t)];
    } both = {{UINT32_MAX, 0}};
    const uint32_t *askew = (const uint32_t *)(void *)(both.bytes + 1);
    char *text = code, small[2];
    size_t count = 7;

    wanted("trace: a null script of one byte", PYC_ARGUMENT, pyc_trace(NULL, 1, NULL, 0, code, length, &text, &count));
    wanted("trace: null places", PYC_ARGUMENT, pyc_trace("", 0, NULL, 1, code, length, &text, &count));
    wanted("trace: places askew", PYC_ARGUMENT, pyc_trace("", 0, askew, 1, code, length, &text, &count));
    wanted("trace: more places than memory has", PYC_ARGUMENT, pyc_trace("", 0, both.places, SIZE_MAX / 4, code, length, &text, &count));
    wanted("trace: places whose bytes no size counts", PYC_ARGUMENT, pyc_trace("", 0, both.places, SIZE_MAX / 4 + 2, code, length, &text, &count));
    wanted("trace: a null file of one byte", PYC_ARGUMENT, pyc_trace("", 0, NULL, 0, NULL, 1, &text, &count));
    wanted("trace: a length of the script past limits", PYC_ARGUMENT, pyc_trace(high, SIZE_MAX, NULL, 0, code, length, &text, &count));
    wanted("trace: a null text", PYC_ARGUMENT, pyc_trace("", 0, NULL, 0, code, length, NULL, &count));
    wanted("trace: a null count", PYC_ARGUMENT, pyc_trace("", 0, NULL, 0, code, length, &text, NULL));
    wanted("trace: the places in the text", PYC_ARGUMENT, pyc_trace_into("", 0, both.places, 2, code, length, both.bytes, sizeof both, &count));
    wanted("trace: no script", PYC_USAGE, pyc_trace("x", 1, NULL, 0, code, length, &text, &count));
    holds("trace: no script has no text", text == NULL && count == 0);
    wanted("trace: a script that is not UTF-8", PYC_USAGE, pyc_trace("\xff", 1, NULL, 0, code, length, &text, &count));
    wanted("trace: no file", PYC_INPUT, pyc_trace("", 0, NULL, 0, NULL, 0, &text, &count));
    pyc_free(text);
    wanted("trace: no code at the place", PYC_INPUT, pyc_trace("", 0, both.places, 1, code, length, &text, &count));
    holds("trace: the line of no code", text != NULL && strcmp(text, "input: no code at this path\n") == 0);
    pyc_free(text);
    memset(small, 'x', sizeof small);
    wanted("trace: no room", PYC_NO_ROOM, pyc_trace_into("", 0, NULL, 0, code, length, small, sizeof small, &count));
    holds("trace: nothing is written without room", count == 0 && memcmp(small, "xx", sizeof small) == 0);
    wanted("trace: the outermost code", PYC_DONE, pyc_trace("", 0, NULL, 0, code, length, &text, &count));
    holds("trace: a zero byte follows the lines", text != NULL && strlen(text) == count);
    pyc_free(text);
}

static void try_verify(char *code, size_t length)
{
    union {
        struct pyc_flaw flaw;
        char bytes[2 * sizeof(struct pyc_flaw)];
    } both;
    struct pyc_flaw *flaw = &both.flaw;
    char kept = code[0];

    wanted("verify: a null flaw", PYC_ARGUMENT, pyc_verify(code, length, NULL));
    wanted("verify: a flaw askew", PYC_ARGUMENT, pyc_verify(code, length, (struct pyc_flaw *)(void *)(both.bytes + 1)));
    wanted("verify: a null file of one byte", PYC_ARGUMENT, pyc_verify(NULL, 1, flaw));
    wanted("verify: a length past the last address", PYC_ARGUMENT, pyc_verify(code, SIZE_MAX, flaw));
    wanted("verify: a length past PTRDIFF_MAX", PYC_ARGUMENT, pyc_verify(high, (size_t)PTRDIFF_MAX + 1, flaw));
    wanted("verify: a flaw in the file", PYC_ARGUMENT, pyc_verify(both.bytes, sizeof both, flaw));
    memset(&both, 0xff, sizeof both);
    wanted("verify: a null file of no bytes", PYC_INPUT, pyc_verify(NULL, 0, flaw));
    holds("verify: no bytes end at 0", flaw->offset == 0 && flaw->path == NULL && flaw->kind == PYC_NO_FLAW);
    code[0] = 'Q';
    wanted("verify: another first byte", PYC_INPUT, pyc_verify(code, length, flaw));
    code[0] = kept;
    code[length] = 0;
    wanted("verify: a byte behind the code", PYC_INPUT, pyc_verify(code, length + 1, flaw));
    holds("verify: that byte is the first bad field", flaw->offset == length);
    memset(&both, 0xff, sizeof both);
    wanted("verify: a file", PYC_DONE, pyc_verify(code, length, flaw));
    holds("verify: all is set with yes", flaw->kind == PYC_NO_FLAW && flaw->unit == 0 && flaw->path == NULL
                                             && flaw->path_length == 0 && flaw->offset == 0);
}

static void try_texts(void)
{
    uint32_t kind, other;

    for (kind = 0; kind <= PYC_BLOCK_MISMATCH + 1; kind++) {
        for (other = 0; other < kind; other++)
            holds("a text of each kind", strcmp(pyc_flaw_text(kind), pyc_flaw_text(other)) != 0);
    }
    pyc_free(NULL);
}

int main(int argc, char **argv)
{
    size_t length = 0, rows_length = 0;
    char *code = argc == 3 ? read_file(argv[1], &length) : NULL;
    char *rows = argc == 3 ? read_file(argv[2], &rows_length) : NULL;

    if (code == NULL || rows == NULL) {
        fputs("usage: test_pyc CODE ROWS.json\n", stderr);
        return 2;
    }
    high = argv[1];
    try_unpack(code, length);
    try_names(rows, rows_length);
    try_trace(code, length);
    try_verify(code, length);
    try_texts();
    free(code);
    free(rows);
    return wrong;
}
