/* Starts /bin/true COUNT times with at most OPEN of them open at once, and reads both outputs of each through pipes up to their
   ends, as a runner has to that looks at what a test prints. Usage: pipes COUNT OPEN */
#define _GNU_SOURCE
#include <fcntl.h>
#include <poll.h>
#include <spawn.h>
#include <stdlib.h>
#include <sys/wait.h>
#include <unistd.h>

extern char **environ;

enum { MOST = 64 };

/* An open program: its number, and the ends of its two pipes, of which one that has ended is -1. */
static pid_t children[MOST];
static struct pollfd ends[2 * MOST];

static int start(int place) {
  char *program[] = {"/bin/true", NULL};
  int out[2], err[2];
  posix_spawn_file_actions_t actions;
  if (pipe2(out, O_CLOEXEC) != 0 || pipe2(err, O_CLOEXEC) != 0 || posix_spawn_file_actions_init(&actions) != 0) return 1;
  if (posix_spawn_file_actions_addopen(&actions, 0, "/dev/null", O_RDONLY, 0) != 0) return 1;
  if (posix_spawn_file_actions_adddup2(&actions, out[1], 1) != 0) return 1;
  if (posix_spawn_file_actions_adddup2(&actions, err[1], 2) != 0) return 1;
  if (posix_spawn(&children[place], program[0], &actions, NULL, program, environ) != 0) return 1;
  posix_spawn_file_actions_destroy(&actions);
  close(out[1]);
  close(err[1]);
  ends[2 * place] = (struct pollfd){out[0], POLLIN, 0};
  ends[2 * place + 1] = (struct pollfd){err[0], POLLIN, 0};
  return 0;
}

static void hear(struct pollfd *end) {
  static char buffer[65536];
  if (end->fd < 0 || end->revents == 0 || read(end->fd, buffer, sizeof buffer) > 0) return;
  close(end->fd);
  end->fd = -1;
}

int main(int count_of_words, char **words) {
  if (count_of_words != 3) return 2;
  long left = atol(words[1]), most = atol(words[2]), open = 0;
  if (most < 1 || most > MOST) return 2;
  for (int place = 0; place < 2 * MOST; place++) ends[place].fd = -1;
  while (left > 0 || open > 0) {
    for (int place = 0; place < most && left > 0; place++) {
      if (children[place] != 0) continue;
      if (start(place) != 0) return 1;
      left--;
      open++;
    }
    if (poll(ends, 2 * most, -1) < 0) return 1;
    for (int place = 0; place < most; place++) {
      hear(&ends[2 * place]);
      hear(&ends[2 * place + 1]);
      if (children[place] == 0 || ends[2 * place].fd >= 0 || ends[2 * place + 1].fd >= 0) continue;
      if (waitpid(children[place], NULL, 0) < 0) return 1;
      children[place] = 0;
      open--;
    }
  }
  return 0;
}
