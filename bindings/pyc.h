/* The compiler as a library for C: the rows of a syntax tree in, its code or its refusal out; and a file of code in, its
 * listing, the verdict on it or the lines of a run of it out.
 *
 * docs/CALLING.md says how it is built, and what is proved of it: the calls of crates/pyc_c are, pyc.c is not.
 */
#ifndef PYC_H
#define PYC_H

#include <stddef.h>
#include <stdint.h>

#ifdef __cplusplus
extern "C" {
#endif

/* What is written of the code. */
enum pyc_output {
    PYC_LISTING = 0, /* its listing (docs/LISTING.md) */
    PYC_FILE = 1     /* the file that holds it (crates/py_codefile/README.md) */
};

/* What the tree is. */
enum pyc_mode {
    PYC_EXEC = 0,   /* a file that is run */
    PYC_EVAL = 1,   /* one expression */
    PYC_SINGLE = 2, /* what is entered at a prompt */
    PYC_BLOCK = 3   /* a file whose last value is given */
};

/* What a call answers. 0 to 6 are the statuses of the program (README.md); 4 does not come. Each call says which come. */
enum pyc_status {
    PYC_DONE = 0,    /* done: the text is what was asked for; or the code verifies */
    PYC_REFUSED = 1, /* the tree is refused: the text is the place and the reason; or the code has a flaw */
    PYC_USAGE = 2,   /* a wrong output, mode or level, a path that is no UTF-8, or no script */
    PYC_INPUT = 3,   /* the bytes are not the rows of a tree, or no file of code: the text says why */
    PYC_NO_ROOM = 5, /* the text has no room: nothing is written */
    PYC_MEMORY = 6,  /* there was no memory */
    PYC_ARGUMENT = 7 /* an argument cannot be the caller's memory: nothing was done */
};

/* What is wrong with a code (crates/py_verify/README.md). */
enum pyc_flaw_kind {
    PYC_NO_FLAW = 0,         /* none */
    PYC_TOO_DEEP = 1,        /* codes nest 2^11 deep, the outermost counting one: no file holds such a code */
    PYC_TOO_MANY_UNITS = 2,  /* 2^32 units or more: no file holds such a code */
    PYC_PLACE_OUTSIDE = 3,   /* the next instruction, or the first, is outside the code, or only prefixes stand there */
    PYC_OPERAND_OUTSIDE = 4, /* the operand is outside its table or range, or names no unit */
    PYC_HEIGHT_OUTSIDE = 5,  /* too few values above the innermost block, or more than the depth of the stack */
    PYC_UNEVEN_HEIGHTS = 6,  /* two walks reach the unit with different heights of the stack */
    PYC_BLOCK_MISMATCH = 7   /* the block that is needed is not there, or two walks reach the unit with different blocks */
};

/* A flaw, and where it is; or where bytes are no file. What the status says nothing of is 0 or null. */
struct pyc_flaw {
    uint32_t kind;      /* with PYC_REFUSED, an enum pyc_flaw_kind */
    uint32_t unit;      /* with PYC_REFUSED, the place of the unit in its code, from 0 */
    uint32_t *path;     /* the places among constants, from 0, that lead from the outermost code to the one with the flaw */
    size_t path_length; /* how many places that are; 0, and a null path, for the outermost code */
    uint64_t offset;    /* with PYC_INPUT, where the first bad field begins, in bytes from 0 */
};

/* Arguments are looked at first, by each call. PYC_ARGUMENT tells a null pointer, but before a length of 0; a length above
 * PTRDIFF_MAX, or that ends behind the last address; a `count`, a `text`, `places` or a `flaw` that is not aligned; and
 * memory that is written and lies in what else is handed over. That memory is there the caller owes.
 *
 * A call keeps nothing, and calls in several threads do not meet. It is not for a signal handler, nor for the child of a
 * fork of a process with threads. Compiling takes up to 7 MB of stack, for trees that nest as deep as may be: with less,
 * such a tree ends the process by a signal. The other calls take some too, for trees and codes that nest deep.
 *
 * Each call that gives a text takes memory for it, and puts a zero byte behind it. `*text` is null where there is none;
 * else `*count` is how many bytes it has, and pyc_free gives it back. The call of the same name with `_into` puts the text
 * at the front of the caller's `text`, which has room for `room` bytes. No zero byte follows. Where the room is too small
 * the answer is PYC_NO_ROOM, and `text` is as it was.
 */

/* Compiles the rows of a tree. The text is the listing or the file of the code.
 *
 * The level is 0; 1 without assertions and with __debug__ False; 2 without docstrings too. The path, which the code
 * names, is UTF-8. Rows have fewer than 2^26 bytes (docs/ROWS.md). Every status but 4 may come.
 */
uint32_t pyc_compile(uint32_t output, uint32_t mode, uint32_t level,
                     const char *path, size_t path_length,
                     const char *rows, size_t rows_length,
                     char **text, size_t *count);

uint32_t pyc_compile_into(uint32_t output, uint32_t mode, uint32_t level,
                          const char *path, size_t path_length,
                          const char *rows, size_t rows_length,
                          char *text, size_t room, size_t *count);

/* Gives the listing of the code that a file holds, once it is verified, as the program's `unpack`. The file has fewer than
 * 2^26 bytes. PYC_INPUT tells bytes that are too many or no file of code, and a code with a flaw: the text is the line
 * that says so. PYC_REFUSED and PYC_USAGE do not come.
 */
uint32_t pyc_unpack(const char *file, size_t file_length, char **text, size_t *count);

uint32_t pyc_unpack_into(const char *file, size_t file_length, char *text, size_t room, size_t *count);

/* Gives the report on the names of the tree that the rows are, as the program's `names` (docs/COMMANDS.md): a line each,
 * and no text where nothing is told. The path is UTF-8, and nothing else is asked of it. Every status but 4 may come.
 */
uint32_t pyc_names(const char *path, size_t path_length,
                   const char *rows, size_t rows_length,
                   char **text, size_t *count);

uint32_t pyc_names_into(const char *path, size_t path_length,
                        const char *rows, size_t rows_length,
                        char *text, size_t room, size_t *count);

/* Tells the run of one of the codes in a file over a script of answers, a line for each thing that is asked, as the program
 * pyc_trace (docs/COMMANDS.md): what another machine is to do. The script is answers joined by commas. The places, each
 * among the constants of the code before, from 0, lead from the outermost code to the one that is run. The code need not
 * verify: a run may end as `wrong`. The file has fewer than 2^26 bytes.
 *
 * PYC_USAGE tells a script that is none, and then there is no text. PYC_INPUT tells bytes that are too many or no file of
 * code, and places at which no code stands: the text is the line that says so. PYC_REFUSED does not come.
 */
uint32_t pyc_trace(const char *script, size_t script_length,
                   const uint32_t *places, size_t places_length,
                   const char *file, size_t file_length,
                   char **text, size_t *count);

uint32_t pyc_trace_into(const char *script, size_t script_length,
                        const uint32_t *places, size_t places_length,
                        const char *file, size_t file_length,
                        char *text, size_t room, size_t *count);

/* Says whether the code that a file holds verifies, with those within it: no run of it leaves its units, its tables, its
 * stack or its blocks, whatever is answered. crates/py_verify/README.md has what that does not say, and what a machine
 * that takes files from anywhere sees to besides. The file may have any length.
 *
 * PYC_DONE is yes. PYC_REFUSED tells a flaw: its kind, its unit and its path, which pyc_free gives back. PYC_INPUT tells
 * bytes that are no file of code, and where the first bad field begins. PYC_MEMORY and PYC_ARGUMENT may come too, and no
 * other. All of `*flaw` is set, but with PYC_ARGUMENT; what stood there is not freed.
 */
uint32_t pyc_verify(const char *file, size_t file_length, struct pyc_flaw *flaw);

/* The text of a kind of flaw, one line in English without its end. It is never null, and is not freed. */
const char *pyc_flaw_text(uint32_t kind);

/* Gives back a text, or the path of a flaw; null is nothing. */
void pyc_free(void *memory);

#ifdef __cplusplus
}
#endif

#endif
