/* Runs a program with its standard output thrown away: spent PROGRAM ARGUMENT..
 *
 * Prints its processor time in microseconds, the most memory that it had in use in KiB, and its status. A
 * process begins with the size of the one that starts it, so the memory can't be taken by a large one. */
#include <fcntl.h>
#include <stdio.h>
#include <sys/resource.h>
#include <sys/wait.h>
#include <unistd.h>

int main(int count, char **arguments) {
  if (count < 2) return 2;
  pid_t child = fork();
  if (child < 0) return 3;
  if (child == 0) {
    dup2(open("/dev/null", O_WRONLY), 1);
    execv(arguments[1], arguments + 1);
    _exit(127);
  }
  int status;
  struct rusage used;
  if (wait4(child, &status, 0, &used) < 0) return 3;
  long time = (used.ru_utime.tv_sec + used.ru_stime.tv_sec) * 1000000L + used.ru_utime.tv_usec + used.ru_stime.tv_usec;
  printf("%ld %ld %d\n", time, used.ru_maxrss, WIFEXITED(status) ? WEXITSTATUS(status) : 128);
  return 0;
}
