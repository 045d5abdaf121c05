/* Starts /bin/true COUNT times with at most OPEN of them open at once, and reads no output: what any runner has to do at least.
   Usage: floor COUNT OPEN */
#include <spawn.h>
#include <stdlib.h>
#include <sys/wait.h>

extern char **environ;

int main(int count_of_words, char **words) {
  if (count_of_words != 3) return 2;
  long left = atol(words[1]), most = atol(words[2]), open = 0;
  char *program[] = {"/bin/true", NULL};
  while (left > 0 || open > 0) {
    if (left > 0 && open < most) {
      pid_t child;
      if (posix_spawn(&child, program[0], NULL, NULL, program, environ) != 0) return 1;
      left--;
      open++;
    } else {
      int status;
      if (wait(&status) < 0) return 1;
      open--;
    }
  }
  return 0;
}
