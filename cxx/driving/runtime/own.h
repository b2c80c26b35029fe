// Not proved (../../README.md). The program of g++ within the built one: it runs in its place where so few threads may
// run that it is faster.
#pragma once
#include "prints.h"

// The program, and by how many threads the built one is worth running: linked with the text.
extern "C" const unsigned char commute_own[], commute_own_end[];
extern "C" const int commute_least_threads;

// Before main and all that it makes. Where the system has no such files the built program runs.
__attribute__((constructor)) static void run_own(int, char **words, char **environment) {
  const char *told = std::getenv("COMMUTE_LEAST");
  if (told_workers() >= (told == nullptr ? commute_least_threads : std::atoi(told))) return;
  const int file = int(syscall(SYS_memfd_create, "program", 1u /* closed by exec */));
  if (file < 0) return;
  for (const unsigned char *at = commute_own; at < commute_own_end;) {
    const ssize_t written = ::write(file, at, std::size_t(commute_own_end - at));
    if (written <= 0) break;
    at += written;
  }
  if (lseek(file, 0, SEEK_CUR) == commute_own_end - commute_own) fexecve(file, words, environment);
  close(file);
}
