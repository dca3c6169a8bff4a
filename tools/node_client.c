/* Passes the words of a command to a server (tools/node_server), and its answer on. What asks something of the process itself
   runs by the carrier: a limit, a library, a file by its descriptor, a FIFO, an output that is a device. cases/run compiles
   it, with FOLDER, CARRIER and SERVERS. */
#define _GNU_SOURCE
#include <errno.h>
#include <poll.h>
#include <signal.h>
#include <stdint.h>
#include <stdio.h>
#include <stdlib.h>
#include <string.h>
#include <sys/resource.h>
#include <sys/socket.h>
#include <sys/stat.h>
#include <sys/un.h>
#include <unistd.h>

enum { OUTPUT = 1, OUTPUT_FAILED = 5, NO_SERVER = 70 };

static _Noreturn void fail(const char *what) {
  perror(what);
  exit(NO_SERVER);
}

static int is_limited(int kind) {
  struct rlimit it;
  return !getrlimit(kind, &it) && it.rlim_cur != RLIM_INFINITY;
}

/* Whether the command asks something of the process itself. */
static int is_carriers(char **words) {
  struct stat it;
  if (getenv("LD_PRELOAD") || is_limited(RLIMIT_FSIZE) || is_limited(RLIMIT_DATA) || is_limited(RLIMIT_AS)) return 1;
  if (fstat(OUTPUT, &it) || !(S_ISREG(it.st_mode) || S_ISFIFO(it.st_mode))) return 1;
  while (*++words) {
    if (!strncmp(*words, "/dev/fd/", 8) || !strncmp(*words, "/dev/std", 8) || !strncmp(*words, "/proc/", 6)) return 1;
    if (!stat(*words, &it) && S_ISFIFO(it.st_mode)) return 1;
  }
  return 0;
}

/* Writes all bytes; whether they were taken. */
static int put(int to, const void *bytes, size_t count) {
  for (ssize_t took; count; bytes = (const char *)bytes + took, count -= took)
    while ((took = write(to, bytes, count)) <= 0) {
      if (took == 0 || errno != EAGAIN) return 0;
      poll(&(struct pollfd){to, POLLOUT, 0}, 1, -1);
    }
  return 1;
}

static void get(int from, void *to, size_t count) {
  for (ssize_t took; count; to = (char *)to + took, count -= took)
    if ((took = read(from, to, count)) <= 0) fail("the server's answer");
}

int main(int count, char **words) {
  if (is_carriers(words)) {
    execv(words[0] = CARRIER, words);
    fail(CARRIER);
  }
  signal(SIGPIPE, SIG_IGN);
  struct sockaddr_un name = {.sun_family = AF_UNIX};
  snprintf(name.sun_path, sizeof name.sun_path, "%s/%d", FOLDER, getpid() % SERVERS);
  int server = socket(AF_UNIX, SOCK_STREAM, 0);
  if (connect(server, (struct sockaddr *)&name, sizeof name)) fail(name.sun_path);
  uint32_t request[] = {getpid(), 0}, answer[2]; /* the process and the words' length; the status and the output's length */
  for (int at = 1; at < count; at++) request[1] += strlen(words[at]) + 1;
  int is_put = put(server, request, sizeof request);
  for (int at = 1; at < count; at++) is_put = is_put && put(server, words[at], strlen(words[at]) + 1);
  if (!is_put) fail("the request");
  get(server, answer, sizeof answer);
  char *output = malloc(answer[1] + 1ul);
  if (!output) fail("the answer");
  get(server, output, answer[1]);
  return put(OUTPUT, output, answer[1]) ? (int)answer[0] : OUTPUT_FAILED;
}
