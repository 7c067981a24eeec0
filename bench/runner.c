/* Runs programs for bench/hostile.py, one after another, and says of each how it ended, how long it took of a processor and how much
 * memory it had. A child of a small process has its own most of memory, and not that of the script.
 *
 * It reads requests from file 0: four bytes with a length, and so many bytes: a folder, a program, the number of settings of its
 * environment, these, and the words of its call, each with a byte 0 behind it. It answers on file 1 with three numbers of eight bytes: the
 * status of the wait, microseconds of the processor, and KiB of memory. The outputs of the program go to files 3 and 4. Its words are: seconds
 * of the processor, seconds of the clock, and bytes of memory that a program may take.
 */
#define _GNU_SOURCE
#include <fcntl.h>
#include <signal.h>
#include <stdint.h>
#include <stdlib.h>
#include <string.h>
#include <sys/resource.h>
#include <sys/wait.h>
#include <unistd.h>

static char text[1 << 16];
static pid_t child;

static void stop(int number) {
  (void)number;
  kill(child, SIGKILL);
}

static int take(void *to, size_t size) {
  for (size_t at = 0; at < size;) {
    ssize_t got = read(0, (char *)to + at, size - at);
    if (got <= 0) return 0;
    at += got;
  }
  return 1;
}

static void run(char **parts, struct rlimit *processor, struct rlimit *memory) {
  int settings = atoi(parts[2]);
  char *places[64];
  int nothing = open("/dev/null", O_RDONLY);
  if (nothing < 0 || chdir(parts[0])) _exit(126);
  dup2(nothing, 0);
  dup2(3, 1);
  dup2(4, 2);
  close(nothing);
  close(3);
  close(4);
  for (int at = 0; at < settings; at++) places[at] = parts[3 + at];
  places[settings] = 0;
  setrlimit(RLIMIT_CPU, processor);
  setrlimit(RLIMIT_AS, memory);
  execve(parts[1], parts + 3 + settings, places);
  _exit(127);
}

int main(int count, char **words) {
  if (count != 4) return 2;
  rlim_t seconds = strtoul(words[1], 0, 10), bytes = strtoul(words[3], 0, 10);
  struct rlimit processor = {seconds, seconds + 1}, memory = {bytes, bytes};
  unsigned wait = strtoul(words[2], 0, 10);
  struct sigaction action = {.sa_handler = stop};
  sigaction(SIGALRM, &action, 0);
  uint32_t size;
  while (take(&size, 4) && size < sizeof text && take(text, size)) {
    char *parts[128];
    int last = 0;
    for (char *at = text; at < text + size && last < 127; at += strlen(at) + 1) parts[last++] = at;
    parts[last] = 0;
    child = fork();
    if (child < 0) return 1;
    if (child == 0) run(parts, &processor, &memory);
    alarm(wait);
    int status;
    struct rusage used;
    while (wait4(child, &status, 0, &used) < 0)
      ;
    alarm(0);
    int64_t microseconds = (int64_t)(used.ru_utime.tv_sec + used.ru_stime.tv_sec) * 1000000 + used.ru_utime.tv_usec + used.ru_stime.tv_usec;
    int64_t answer[3] = {status, microseconds, used.ru_maxrss};
    if (write(1, answer, sizeof answer) != sizeof answer) return 1;
  }
  return 0;
}
