// Not proved: the threads of workers. None begins before a region has proved worth it; who finds nothing for a while
// sleeps.
#pragma once
#include "placing.h"
#include "workers.h"

// How long who has nothing to do looks for work before it sleeps, or naps where a region is open.
const Time AWAKE = 200 * MICROSECOND;
static bool has_begun = false, is_open = false;
static void *help(void *of);

// Each worker begins the next, on the processor behind its own. Where the machine has no thread more there are as many
// as there are.
static void begin_worker(int index) {
  if (index < workers && !begin_thread(true, help, &all[index])) begin_thread(false, help, &all[index]);
}

static void *help(void *of) {
  Worker &w = *static_cast<Worker *>(of);
  begin_worker(w.index + 1);
  move_freely();
  Time idle = now();
  for (;;) {
    unsigned seen = opened.load(std::memory_order_acquire);
    if (is_over.load(std::memory_order_relaxed)) return nullptr;
    if (seen % 2 == 1 && !is_closed.load(std::memory_order_relaxed) && helped(w)) {
      idle = now();
      continue;
    }
    for (int i = 0; i < 8; i++) pause_briefly();
    Time waited = now() - idle;
    if (waited < AWAKE) continue;
    if (seen % 2 == 1) {
      nap(20 * MICROSECOND);
      continue;
    }
    sleeping.fetch_add(1);
    if (opened.load() == seen) sleep_while(opened, seen);
    sleeping.fetch_sub(1);
    idle = now();
  }
}

// What takes less isn't worth other workers; what takes less than THREADS, with what did before, isn't worth that
// threads are made.
const Time LIGHT = 15 * MICROSECOND, THREADS = 300 * MICROSECOND;
static Time missed = 0;

static inline bool pays_threads(Time left) {
  if (has_begun || is_forced()) return true;
  missed += left;
  return missed >= THREADS;
}

static void open_region() {
  if (RARE(!has_begun)) {
    has_begun = true;
    begin_worker(1);
  }
  is_open = true;
  opened.fetch_add(1);
  if (sleeping.load() > 0) wake(opened, workers - 1);
#ifdef FORCED
  for (int i = 0; i < 30 && is_forced() && all[0].asking.load(std::memory_order_relaxed) == NOBODY && workers > 1; i++)
    usleep(FORCED);
#endif
}

static void end_workers() {
  is_over.store(true);
  opened.fetch_add(2);
  if (has_begun) wake(opened, workers);
}
