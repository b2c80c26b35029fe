// Not proved: how a thread begins: with a stack of its own size, and on the processor behind that of who begins it,
// since the system may put two that begin at once on one processor, and see it milliseconds later. From its start on
// the system moves it as it likes.
#pragma once
#include "machine.h"

static std::size_t thread_stack;
// The processors that this process may use, as it begins.
static cpu_set_t usable;
static inline int find_usable() { return sched_getaffinity(0, sizeof(usable), &usable) == 0 ? CPU_COUNT(&usable) : 1; }

static inline int next_processor() {
  const int here = sched_getcpu();
  for (int at = here + 1; at != here + CPU_SETSIZE; at++)
    if (CPU_ISSET(at % CPU_SETSIZE, &usable)) return at % CPU_SETSIZE;
  return here;
}

static inline void place([[maybe_unused]] pthread_attr_t &attributes) {
#ifdef __GLIBC__
  cpu_set_t own;
  CPU_ZERO(&own);
  CPU_SET(next_processor(), &own);
  pthread_attr_setaffinity_np(&attributes, sizeof(own), &own);
#endif
}

static inline void prepare(pthread_attr_t &attributes) {
  pthread_attr_init(&attributes);
  pthread_attr_setstacksize(&attributes, thread_stack);
  pthread_attr_setguardsize(&attributes, 0);
}

// A thread that nobody waits for. False: there is no thread more.
static inline bool begin_thread(bool is_placed, void *(*run)(void *), void *of) {
  pthread_t thread;
  pthread_attr_t attributes;
  prepare(attributes);
  pthread_attr_setdetachstate(&attributes, PTHREAD_CREATE_DETACHED);
  if (is_placed) place(attributes);
  const bool has_begun = pthread_create(&thread, &attributes, run, of) == 0;
  pthread_attr_destroy(&attributes);
  return has_begun;
}

static inline void move_freely() {
#ifdef __GLIBC__
  sched_setaffinity(0, sizeof(usable), &usable);
#endif
}
