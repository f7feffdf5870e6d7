/* Says how many bytes of the heap a program had in use at most. Loaded before the C library, by LD_PRELOAD.
 *
 * At the end of the program the number is written to the file that the environment's variable HEAP_LOG names.
 * It counts what the C library set aside for each piece, and is the same in every run. */
#include <fcntl.h>
#include <malloc.h>
#include <stdio.h>
#include <stdlib.h>
#include <unistd.h>

/* The C library's own functions, under the names by which it lets them be reached. */
extern void *__libc_malloc(size_t size);
extern void *__libc_calloc(size_t count, size_t size);
extern void *__libc_realloc(void *place, size_t size);
extern void __libc_free(void *place);

static size_t in_use, most;

static void *taken(void *place) {
  in_use += malloc_usable_size(place);
  if (in_use > most) most = in_use;
  return place;
}

void *malloc(size_t size) { return taken(__libc_malloc(size)); }

void *calloc(size_t count, size_t size) { return taken(__libc_calloc(count, size)); }

void *realloc(void *place, size_t size) {
  size_t before = malloc_usable_size(place);
  void *other = __libc_realloc(place, size);
  if (other || size == 0) in_use -= before;
  return taken(other);
}

void free(void *place) {
  in_use -= malloc_usable_size(place);
  __libc_free(place);
}

__attribute__((destructor)) static void tell(void) {
  const char *name = getenv("HEAP_LOG");
  int file = name ? open(name, O_WRONLY | O_CREAT | O_TRUNC, 0600) : -1;
  char text[32];
  int length = snprintf(text, sizeof text, "%zu\n", most);
  if (file < 0) return;
  if (write(file, text, (size_t)length) < 0) _exit(70);
  close(file);
}
