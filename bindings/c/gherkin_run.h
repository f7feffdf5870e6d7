/* Runs gherkin_run in the caller's process. The library's functions are proved; nothing checks the caller:

   - Each pointer and its length or count name memory that can be read; `out`, `errors`, `room` and `answer` can be
     written.
   - A pointer may be null if its length or count is 0, which is tested, not proved. `answer` is never null.
   - Memory that can be written overlaps no other memory of the call.
   - During a call no other thread writes memory that the call names, or uses memory that the call writes.
   - malloc, realloc and free are of one allocator, and align blocks as the C standard asks.
   - No signal handler makes a call, nor does a child that a process with threads forked.

   Arguments, names and files may hold any bytes. A call keeps nothing, so several threads may make calls at once. */
#ifndef GHERKIN_RUN_H
#define GHERKIN_RUN_H
#include <stddef.h>
#include <stdint.h>

/* The version of this header; gherkin_run_version returns that of the library. */
#define GHERKIN_RUN_VERSION "2.0.0"

/* The number in the shared library's name, libgherkin_run.so.0. It changes if callers have to be compiled again. */
#define GHERKIN_RUN_ABI_VERSION 0

#ifdef __cplusplus
extern "C" {
#endif

/* A text: its bytes and their number. It needs no zero at its end. */
typedef struct {
    const uint8_t *bytes;
    size_t length;
} gherkin_text;

/* A file: its name and its content. */
typedef struct {
    gherkin_text name;
    gherkin_text bytes;
} gherkin_file;

enum {
    GHERKIN_PASSED,        /* nothing failed */
    GHERKIN_FAILED,        /* a step, a hook or a cleanup failed, or a step is undefined */
    GHERKIN_BAD_ARGUMENTS, /* the arguments are wrong */
    GHERKIN_BAD_FILE,      /* a file is refused */
    GHERKIN_OUT_OF_MEMORY  /* memory ran out */
};

typedef struct {
    size_t out_length;    /* of all the output that was made, a part if memory ran out; `out` has as much as fits */
    size_t errors_length; /* of all that the program writes to standard error; `errors` has as much of it as fits */
    size_t name_length;   /* of the name of the file that a fault is in, or 0; the name begins at GHERKIN_NAME_AT */
    uint32_t line;        /* the line that the fault is in, or 0 */
    uint8_t status;       /* the program's exit status: GHERKIN_PASSED to GHERKIN_OUT_OF_MEMORY */
} gherkin_answer;

/* If name_length isn't 0, the errors begin with "gherkin_run: " and that name. */
enum { GHERKIN_NAME_AT = 13 };

/* Runs the program with these arguments, those after its name, over these files. Of files of one name the first counts;
   a file that isn't among them can't be read. Writes the output and the errors as far as they fit; the rest of `out`
   and `errors` is unchanged. If a length is greater than the room for it, call again with that much room. If memory
   runs out, the errors say so, and `out` has what was made of the output. */
void gherkin_run(const gherkin_text *arguments, size_t argument_count, const gherkin_file *files, size_t file_count,
                 uint8_t *out, size_t out_room, uint8_t *errors, size_t errors_room, gherkin_answer *answer);

/* Writes the names of the files that the arguments ask for to `room` in the same way, each with a zero byte at its end,
   and returns the length of them all: those of --file, the library file, the hooks file, the feature files. Arguments
   that ask for no run ask for no files. Returns GHERKIN_NO_LENGTH and writes nothing if memory ran out. */
#define GHERKIN_NO_LENGTH ((size_t)-1)
size_t gherkin_run_files(const gherkin_text *arguments, size_t argument_count, uint8_t *room, size_t room_length);

/* Writes the library's version to `room` in the same way, and returns its length. */
size_t gherkin_run_version(uint8_t *room, size_t room_length);

#ifdef __cplusplus
}
#endif
#endif
