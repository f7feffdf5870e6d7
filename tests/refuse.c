/* Refuses one growth of memory of a program, limits what it writes to standard output or reads from files, or
 * notes which files it opens.
 * Loaded before the C library, by LD_PRELOAD. What it does is in variables of the environment:
 *
 *   REFUSE        the number, from 1, of the growth that is refused. A growth is a call of malloc, calloc or
 *                 realloc
 *   REFUSE_LOG    a file to which is written, at the end of the program, whether that growth was met: "met"
 *                 or "unmet", or "retried" where the next growth was of no more bytes than the refused one.
 *                 A program that ends by a signal writes nothing there
 *   WRITE_PIECE   how many bytes a call of write takes at most
 *   WRITE_FAILS   the number, from 1, of the call of write that fails
 *   WRITE_ERROR   the error of that call, a number of errno; without it the call takes no byte and has none
 *   OPEN_FAILS    the file that can't be opened, named as the program names it
 *   OPEN_ERROR    the error of opening it
 *   OPEN_LOG      a file to which each name that is opened is appended, a line for each call, in order, whether
 *                 it can be opened or not
 *   READ_PIECE    how many bytes a call of read gives at most
 *   READ_FAILS    the number, from 1, of the call of read that fails
 *   READ_ERROR    the error of that call; without it the call gives no byte and has none
 *
 * Only the calls of write to standard output, and those of read from files that the program opened, are counted
 * and limited; those after the one that fails are passed on again, so that a program that goes on is seen. The
 * loader, and the C library for its own ends, open their files past this library, so these have no line in the
 * log; a file that the program's runtime opens for itself has one. */
#include <errno.h>
#include <fcntl.h>
#include <stdarg.h>
#include <stdlib.h>
#include <string.h>
#include <sys/syscall.h>
#include <sys/uio.h>
#include <unistd.h>

/* The C library's own functions, under the names by which it lets them be reached. */
extern void *__libc_malloc(size_t size);
extern void *__libc_calloc(size_t count, size_t size);
extern void *__libc_realloc(void *place, size_t size);

static long refused_number = -1;
static long growths;
static size_t refused_size;
static const char *met = "unmet\n";

static int is_refused(size_t size) {
  if (refused_number < 0) {
    const char *number = getenv("REFUSE");
    refused_number = number ? atol(number) : 0;
  }
  growths++;
  if (refused_number > 0 && growths == refused_number + 1 && size <= refused_size) met = "retried\n";
  if (growths != refused_number) return 0;
  met = "met\n";
  refused_size = size;
  errno = ENOMEM;
  return 1;
}

void *malloc(size_t size) { return is_refused(size) ? NULL : __libc_malloc(size); }

void *calloc(size_t count, size_t size) { return is_refused(count * size) ? NULL : __libc_calloc(count, size); }

void *realloc(void *place, size_t size) { return is_refused(size) ? NULL : __libc_realloc(place, size); }

static long number_of(const char *name) {
  const char *text = getenv(name);
  return text ? atol(text) : 0;
}

/* How many bytes a call takes or gives, by the variable of its piece. */
static size_t at_most(const char *piece, size_t count) {
  size_t most = (size_t)number_of(piece);
  return most && most < count ? most : count;
}

/* What a call returns that fails with the error of a variable, or takes or gives no byte. */
static ssize_t fail(const char *error) {
  errno = (int)number_of(error);
  return errno ? -1 : 0;
}

ssize_t write(int file, const void *bytes, size_t count) {
  static long calls;
  if (file != 1) return syscall(SYS_write, file, bytes, count);
  if (++calls == number_of("WRITE_FAILS")) return fail("WRITE_ERROR");
  return syscall(SYS_write, file, bytes, at_most("WRITE_PIECE", count));
}

/* Several pieces in one call are a call for the first that isn't empty. */
ssize_t writev(int file, const struct iovec *pieces, int count) {
  int first = 0;
  while (first + 1 < count && pieces[first].iov_len == 0) first++;
  return count < 1 ? 0 : write(file, pieces[first].iov_base, pieces[first].iov_len);
}

ssize_t read(int file, void *bytes, size_t count) {
  static long calls;
  if (file < 3) return syscall(SYS_read, file, bytes, count);
  if (++calls == number_of("READ_FAILS")) return fail("READ_ERROR");
  return syscall(SYS_read, file, bytes, at_most("READ_PIECE", count));
}

/* Appends the name of a file that is opened to the log, where there is one. */
static void note_opened(const char *name) {
  const char *log = getenv("OPEN_LOG");
  if (!log) return;
  int file = (int)syscall(SYS_openat, AT_FDCWD, log, O_WRONLY | O_CREAT | O_APPEND, 0600);
  struct iovec line[] = {{(void *)name, strlen(name)}, {"\n", 1}};
  if (file < 0 || syscall(SYS_writev, file, line, 2) != (long)strlen(name) + 1) _exit(70);
  close(file);
}

int open(const char *name, int flags, ...) {
  const char *failing = getenv("OPEN_FAILS");
  note_opened(name);
  if (failing && strcmp(failing, name) == 0) return (int)fail("OPEN_ERROR");
  va_list more;
  va_start(more, flags);
  int mode = flags & O_CREAT ? va_arg(more, int) : 0;
  va_end(more);
  return (int)syscall(SYS_openat, AT_FDCWD, name, flags, mode);
}

int open64(const char *name, int flags, ...) __nonnull((1)) __attribute__((alias("open")));

__attribute__((destructor)) static void tell(void) {
  const char *name = getenv("REFUSE_LOG");
  int file = name ? open(name, O_WRONLY | O_CREAT | O_TRUNC, 0600) : -1;
  if (file < 0) return;
  if (write(file, met, strlen(met)) < 0) _exit(70);
  close(file);
}
