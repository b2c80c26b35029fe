// Not proved: the end of sharing in a region, where one alone is faster: the others end what they are about and give
// back what they haven't begun, which is then done alone, or among others if it turns out to pay.
#pragma once
#include "workers.h"

static bool gave_up = false;

// When this is over only the first worker has work. What it does until the region opens again is as if it were alone.
static void close_region() {
  is_closed.store(true);
  for (int i = 0; i < workers; i++) {
    int none = NOBODY;
    all[i].asking.compare_exchange_strong(none, IS_CLOSED);
  }
  while (active.load(std::memory_order_acquire) != 1) pause_briefly();
}

static void open_again() {
  for (int i = 0; i < workers; i++) {
    int it = IS_CLOSED;
    all[i].asking.compare_exchange_strong(it, NOBODY);
  }
  is_closed.store(false);
}

static void run_returned(Worker &w) {
  for (Returned *it = returned.exchange(nullptr, std::memory_order_acquire); it != nullptr;) {
    Returned *next = it->next;
    (gave_up ? it->task.run_alone : it->task.run)(w, it->task);
    std::free(it);
    it = next;
  }
}
