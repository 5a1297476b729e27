// What it costs to make a folder, to start a program in it and to remove the folder, with no server: plain_runs COUNT
// AT_ONCE WORDS.. makes COUNT folders in the present one and runs the words in each, AT_ONCE at a time, with two new
// files as streams. It prints runs a second, and microseconds a run of its own processor time and of its children's.
#define _GNU_SOURCE
#include <fcntl.h>
#include <spawn.h>
#include <stdio.h>
#include <stdlib.h>
#include <sys/resource.h>
#include <sys/stat.h>
#include <sys/time.h>
#include <sys/wait.h>
#include <unistd.h>

static pid_t start(int place, char **words) {
  char folder[32], name[48];
  static char *environment[] = {NULL};
  posix_spawn_file_actions_t actions;
  int streams[2];
  pid_t child;
  snprintf(folder, sizeof folder, "run-%d", place);
  if (mkdir(folder, 0700) != 0) exit(1);
  posix_spawn_file_actions_init(&actions);
  posix_spawn_file_actions_addopen(&actions, 0, "/dev/null", O_RDONLY, 0);
  for (int stream = 0; stream < 2; stream++) {
    snprintf(name, sizeof name, "%s.%d", folder, stream);
    streams[stream] = open(name, O_RDWR | O_CREAT | O_EXCL | O_APPEND | O_CLOEXEC, 0600);
    unlink(name);
    posix_spawn_file_actions_adddup2(&actions, streams[stream], stream + 1);
  }
  posix_spawn_file_actions_addchdir_np(&actions, folder);
  if (posix_spawn(&child, words[0], &actions, NULL, words, environment) != 0) exit(1);
  posix_spawn_file_actions_destroy(&actions);
  for (int stream = 0; stream < 2; stream++) close(streams[stream]);
  return child;
}

static double seconds(struct timeval used) { return used.tv_sec + used.tv_usec / 1e6; }

static double used(int who) {
  struct rusage usage;
  getrusage(who, &usage);
  return seconds(usage.ru_utime) + seconds(usage.ru_stime);
}

int main(int count_words, char **words) {
  if (count_words < 4) return 2;
  int count = atoi(words[1]), at_once = atoi(words[2]), begun = 0;
  pid_t *children = calloc(at_once, sizeof *children);
  struct timeval first, last;
  double before = used(RUSAGE_SELF);
  gettimeofday(&first, NULL);
  while (begun < count && begun < at_once) {
    children[begun] = start(begun, words + 3);
    begun++;
  }
  for (int ended = 0; ended < count; ended++) {
    int status, place = 0;
    char folder[32];
    pid_t child = wait(&status);
    while (children[place] != child) place++;
    snprintf(folder, sizeof folder, "run-%d", place);
    if (status != 0 || rmdir(folder) != 0) return 1;
    children[place] = begun < count ? start(place, words + 3) : 0;
    begun++;
  }
  gettimeofday(&last, NULL);
  double own = used(RUSAGE_SELF) - before, children_used = used(RUSAGE_CHILDREN), passed = seconds(last) - seconds(first);
  printf("%.0f %.1f %.1f\n", count / passed, own / count * 1e6, children_used / count * 1e6);
  return 0;
}
