/* Shows each call: compiles the rows in a file, reports on their names, or looks at a file of code.
 *
 *     example ROWS.json [PATH]       writes the listing of the code that the rows compile to
 *     example -c ROWS.json [PATH]    writes the file that holds it
 *     example -n ROWS.json [PATH]    writes the report on the names of the rows
 *     example -u CODE                writes the listing of the code that the file holds
 *     example -v CODE                says whether that code verifies
 *     example -t CODE [SCRIPT]       writes the lines of its run over a script
 */
#include <stdio.h>
#include <stdlib.h>
#include <string.h>

#include "pyc.h"

/* The bytes of a file, or null. */
static char *read_file(const char *name, size_t *length)
{
    FILE *file = fopen(name, "rb");
    char *bytes = NULL;
    size_t size = 0, got = 1;

    *length = 0;
    while (file != NULL && got != 0) {
        if (*length == size) {
            char *more = realloc(bytes, size = 2 * size + 4096);

            if (more == NULL)
                break;
            bytes = more;
        }
        got = fread(bytes + *length, 1, size - *length, file);
        *length += got;
    }
    if (file != NULL && (ferror(file) || got != 0)) {
        free(bytes);
        bytes = NULL;
    }
    if (file != NULL)
        fclose(file);
    return bytes;
}

/* Writes what a call gave, and lets it go. */
static uint32_t write_text(uint32_t status, char *text, size_t count)
{
    if (text != NULL && fwrite(text, 1, count, status == PYC_DONE ? stdout : stderr) != count)
        status = 5;
    pyc_free(text);
    return status;
}

static uint32_t compile(enum pyc_output output, const char *path, const char *rows, size_t length)
{
    char *text = NULL;
    size_t count = 0;
    uint32_t status = pyc_compile(output, PYC_EXEC, 0, path, strlen(path), rows, length, &text, &count);

    return write_text(status, text, count);
}

static uint32_t report(const char *path, const char *rows, size_t length)
{
    char *text = NULL;
    size_t count = 0;
    uint32_t status = pyc_names(path, strlen(path), rows, length, &text, &count);

    return write_text(status, text, count);
}

static uint32_t unpack(const char *code, size_t length)
{
    char *text = NULL;
    size_t count = 0;
    uint32_t status = pyc_unpack(code, length, &text, &count);

    return write_text(status, text, count);
}

static uint32_t verify(const char *code, size_t length)
{
    struct pyc_flaw flaw;
    uint32_t status = pyc_verify(code, length, &flaw);
    size_t place;

    if (status == PYC_INPUT)
        fprintf(stderr, "no file of code: bad at byte %llu\n", (unsigned long long)flaw.offset);
    if (status == PYC_REFUSED) {
        fputs("code", stderr);
        for (place = 0; place < flaw.path_length; place++)
            fprintf(stderr, " %u", (unsigned)flaw.path[place]);
        fprintf(stderr, ": unit %u: %s\n", (unsigned)flaw.unit, pyc_flaw_text(flaw.kind));
        pyc_free(flaw.path);
    }
    return status;
}

static uint32_t trace(const char *script, const char *code, size_t length)
{
    char *text = NULL;
    size_t count = 0;
    uint32_t status = pyc_trace(script, strlen(script), NULL, 0, code, length, &text, &count);

    return write_text(status, text, count);
}

static int usage(FILE *out, int status)
{
    fputs("usage: example [-c | -n] ROWS.json [PATH], example -u | -v CODE, or example -t CODE [SCRIPT]\n", out);
    return status;
}

int main(int argc, char **argv)
{
    int chooses = argc > 1 && argv[1][0] == '-', is_code;
    char choice = chooses ? argv[1][1] : 'l';
    const char *word;
    size_t length;
    char *bytes;
    uint32_t status;

    if (argc == 2 && strcmp(argv[1], "--help") == 0)
        return usage(stdout, 0);
    if (chooses && (strlen(argv[1]) != 2 || strchr("cnutv", choice) == NULL))
        return usage(stderr, PYC_USAGE);
    is_code = choice == 'u' || choice == 'v';
    if (argc < 2 + chooses || argc > 2 + chooses + !is_code)
        return usage(stderr, PYC_USAGE);
    word = argc > 2 + chooses ? argv[2 + chooses] : choice == 't' ? "" : "m.py";
    bytes = read_file(argv[1 + chooses], &length);
    if (bytes == NULL) {
        fprintf(stderr, "%s cannot be read\n", argv[1 + chooses]);
        return 4;
    }
    status = choice == 'u' ? unpack(bytes, length)
           : choice == 'v' ? verify(bytes, length)
           : choice == 't' ? trace(word, bytes, length)
           : choice == 'n' ? report(word, bytes, length)
                           : compile(choice == 'c' ? PYC_FILE : PYC_LISTING, word, bytes, length);
    if (fflush(stdout) != 0)
        status = 5;
    free(bytes);
    return (int)status;
}
