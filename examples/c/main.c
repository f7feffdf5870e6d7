/* Runs the program with the library: main [OPTION].. FILE..
 *
 * Takes the program's arguments. The output, the errors and the status are the program's. With --show as the first
 * argument it also prints the line that a fault is in. */
#include "gherkin_run.h"
#include <stdbool.h>
#include <stdio.h>
#include <stdlib.h>
#include <string.h>

/* The arguments, and the files that they name and that can be read. */
typedef struct {
    gherkin_text *arguments;
    gherkin_file *files;
    size_t argument_count, file_count;
} command;

/* A text that the library writes, and the room for it. */
typedef struct {
    uint8_t *bytes;
    size_t room;
} text;

/* Returns memory for as many items as asked for, and ends the program if there is none. */
static void *room_for(size_t count, size_t size) {
    void *room = calloc(count + 1, size);
    if (!room) exit(GHERKIN_OUT_OF_MEMORY);
    return room;
}

static gherkin_text text_of(const char *text) {
    gherkin_text made = {(const uint8_t *)text, strlen(text)};
    return made;
}

/* Reads a file whole into `file`. Returns whether it can be read: a folder can be opened, but not read. */
static bool reads(const char *name, gherkin_file *file) {
    FILE *opened = fopen(name, "rb");
    uint8_t *bytes = malloc(1);
    size_t length = 0, size = 1, got;
    while (opened && bytes && (got = fread(bytes + length, 1, size - length, opened)) > 0) {
        length += got;
        if (length == size) bytes = realloc(bytes, size *= 2);
    }
    if (!bytes) exit(GHERKIN_OUT_OF_MEMORY);
    bool is_read = opened && !ferror(opened);
    if (opened) fclose(opened);
    gherkin_file made = {text_of(name), {bytes, length}};
    *file = made;
    return is_read;
}

/* Reads the files that the arguments ask for. */
static void read_files(command *asked) {
    size_t length = gherkin_run_files(asked->arguments, asked->argument_count, NULL, 0);
    if (length == GHERKIN_NO_LENGTH) exit(GHERKIN_OUT_OF_MEMORY);
    char *names = room_for(length, 1);
    gherkin_run_files(asked->arguments, asked->argument_count, (uint8_t *)names, length);
    asked->files = room_for(length, sizeof *asked->files);
    for (char *name = names; name < names + length; name += strlen(name) + 1)
        if (reads(name, &asked->files[asked->file_count])) asked->file_count++;
}

/* Reads the arguments, which end with a null pointer. */
static command command_of(size_t count, char **words) {
    command asked = {.arguments = room_for(count, sizeof *asked.arguments)};
    for (; *words; words++) asked.arguments[asked.argument_count++] = text_of(*words);
    read_files(&asked);
    return asked;
}

static text text_with(size_t room) {
    text made = {room_for(room, 1), room};
    return made;
}

/* Runs the command. The first room is enough for most reports; if it isn't, the second is. */
static gherkin_answer run(const command *asked, text *out, text *errors) {
    gherkin_answer answer;
    size_t size = 1 << 16;
    for (size_t n = 0; n < asked->file_count; n++) size += 8 * asked->files[n].bytes.length;
    *out = text_with(size), *errors = text_with(1 << 12);
    while (gherkin_run(asked->arguments, asked->argument_count, asked->files, asked->file_count, out->bytes, out->room,
                       errors->bytes, errors->room, &answer),
           answer.out_length > out->room || answer.errors_length > errors->room) {
        free(out->bytes), free(errors->bytes);
        *out = text_with(answer.out_length), *errors = text_with(answer.errors_length);
    }
    return answer;
}

/* Prints the line that a fault is in, if there is one. */
static void show(const command *asked, const gherkin_answer *answer, const uint8_t *errors) {
    const uint8_t *name = errors + GHERKIN_NAME_AT;
    const gherkin_file *file = asked->files, *last = file + asked->file_count;
    while (file < last && (file->name.length != answer->name_length || memcmp(file->name.bytes, name, answer->name_length) != 0)) file++;
    if (file == last || answer->line == 0) return;
    const uint8_t *at = file->bytes.bytes, *end = at + file->bytes.length;
    for (uint32_t line = 1; line < answer->line && at < end; at++) line += *at == '\n';
    for (; at < end && *at != '\n'; at++) fputc(*at, stderr);
    fputc('\n', stderr);
}

int main(int count, char **words) {
    bool shows = count > 1 && strcmp(words[1], "--show") == 0;
    command asked = command_of((size_t)count, words + 1 + shows);
    text out, errors;
    gherkin_answer answer = run(&asked, &out, &errors);
    fwrite(errors.bytes, 1, answer.errors_length, stderr);
    if (fwrite(out.bytes, 1, answer.out_length, stdout) != answer.out_length || fflush(stdout) != 0) return GHERKIN_BAD_FILE;
    if (shows) show(&asked, &answer, errors.bytes);
    return answer.status;
}
