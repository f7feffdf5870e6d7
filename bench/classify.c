/* Reads files and does no more than classify their lines: classify FILE..
 *
 * The measure beside which bench/measure sets the program's processor time. A line is trimmed of blanks
 * and is blank, a comment, tags, a heading, a step, a row, a fence or other text, the first that fits.
 * Prints how many lines of each class there are. */
#include <fcntl.h>
#include <stdio.h>
#include <stdlib.h>
#include <string.h>
#include <sys/stat.h>
#include <unistd.h>

enum class { BLANK, COMMENT, TAGS, HEADING, STEP, ROW, FENCE, OTHER, CLASSES };

static const char *const names[CLASSES] = {"blank", "comment", "tags", "heading", "step", "row", "fence", "other"};
static int is_blank(char c) { return c == ' ' || c == '\t'; }

static int begins(const char *text, size_t length, const char *word, size_t size) {
  return length >= size && memcmp(text, word, size) == 0;
}

#define BEGINS(word) begins(text, length, word, sizeof word - 1)
#define IS_STEP(word) (length >= sizeof word && is_blank(text[sizeof word - 1]) && BEGINS(word))

/* The first byte decides, but for what begins with the same letter. */
static enum class class_of(const char *text, size_t length) {
  while (length > 0 && is_blank(*text)) text++, length--;
  while (length > 0 && is_blank(text[length - 1])) length--;
  if (length == 0) return BLANK;
  switch (*text) {
    case '#': return COMMENT;
    case '@': return TAGS;
    case '|': return ROW;
    case 'G': return IS_STEP("Given") ? STEP : OTHER;
    case 'W': return IS_STEP("When") ? STEP : OTHER;
    case 'T': return IS_STEP("Then") ? STEP : OTHER;
    case 'A': return IS_STEP("And") ? STEP : OTHER;
    case '*': return IS_STEP("*") ? STEP : OTHER;
    case 'B': return IS_STEP("But") ? STEP : BEGINS("Background:") ? HEADING : OTHER;
    case 'F': return BEGINS("Feature:") ? HEADING : OTHER;
    case 'R': return BEGINS("Rule:") ? HEADING : OTHER;
    case 'E': return BEGINS("Example:") || BEGINS("Examples:") ? HEADING : OTHER;
    case 'S':
      return BEGINS("Scenario:") || BEGINS("Scenarios:") || BEGINS("Scenario Outline:") || BEGINS("Scenario Template:") ? HEADING
                                                                                                                       : OTHER;
    case '"': return BEGINS("\"\"\"") ? FENCE : OTHER;
    case '`': return BEGINS("```") ? FENCE : OTHER;
    default: return OTHER;
  }
}

/* Reads a file whole; ends the program where that can't be done. */
static char *read_whole(const char *name, size_t *length) {
  struct stat about;
  int file = open(name, O_RDONLY);
  if (file < 0 || fstat(file, &about) < 0) exit(3);
  char *text = malloc((size_t)about.st_size + 1);
  if (!text) exit(4);
  *length = 0;
  for (;;) {
    ssize_t got = read(file, text + *length, (size_t)about.st_size - *length);
    if (got < 0) exit(3);
    if (got == 0) break;
    *length += (size_t)got;
  }
  close(file);
  return text;
}

int main(int count, char **arguments) {
  unsigned long found[CLASSES] = {0};
  for (int i = 1; i < count; i++) {
    size_t length;
    char *text = read_whole(arguments[i], &length);
    const char *at = text, *end = text + length;
    while (at < end) {
      const char *feed = memchr(at, '\n', (size_t)(end - at));
      const char *last = feed ? feed : end;
      size_t line = (size_t)(last - at);
      if (feed && line > 0 && at[line - 1] == '\r') line--;
      found[class_of(at, line)]++;
      at = last + 1;
    }
    free(text);
  }
  for (int i = 0; i < CLASSES; i++) printf("%s %lu\n", names[i], found[i]);
  return 0;
}
