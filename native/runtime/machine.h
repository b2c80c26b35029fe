// Not proved: what differs from machine to machine: clocks, the pause of a thread that waits, sleep until a word
// changes.
#pragma once
#include <algorithm>
#include <atomic>
#include <cstddef>
#include <cstdint>
#include <cstdio>
#include <cstdlib>
#include <cstring>
#include <linux/futex.h>
#include <pthread.h>
#include <sched.h>
#include <sys/mman.h>
#include <sys/resource.h>
#include <sys/syscall.h>
#include <time.h>
#include <unistd.h>

#define RARE(condition) __builtin_expect(!!(condition), 0)

// Nanoseconds.
using Time = std::int64_t;
const Time MICROSECOND = 1000;

static inline Time time_of(clockid_t clock) {
  timespec it;
  clock_gettime(clock, &it);
  return Time(it.tv_sec) * 1000000000 + it.tv_nsec;
}
static inline Time now() { return time_of(CLOCK_MONOTONIC); }
// What this thread took of processors: it may have been set aside for others.
static inline Time own_time() { return time_of(CLOCK_THREAD_CPUTIME_ID); }

static inline void pause_briefly() {
#if defined(__x86_64__) || defined(__i386__)
  __builtin_ia32_pause();
#elif defined(__aarch64__)
  asm volatile("yield");
#else
  sched_yield();
#endif
}

static inline void sleep_while(std::atomic<unsigned> &at, unsigned value) {
  syscall(SYS_futex, &at, FUTEX_WAIT_PRIVATE, value, nullptr, nullptr, 0);
}
static inline void wake(std::atomic<unsigned> &at, int many) {
  syscall(SYS_futex, &at, FUTEX_WAKE_PRIVATE, many, nullptr, nullptr, 0);
}

[[noreturn]] static inline void fail(const char *why) {
  std::fprintf(stderr, "%s\n", why);
  _exit(1);
}

// Addresses under the thread sanitizer are few.
#if defined(__SANITIZE_THREAD__)
#define HAS_SANITIZER 1
#elif defined(__has_feature)
#if __has_feature(thread_sanitizer)
#define HAS_SANITIZER 1
#endif
#endif
