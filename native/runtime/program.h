// Not proved: what the C++ of native/build stands on. main: reserves space, runs the program on a large stack, writes.
#pragma once
#include "regions.h"
#include "text.h"
#include <ucontext.h>

// Told by the program's text.
void program();

#ifdef HAS_SANITIZER
const std::size_t LARGE_STACK = std::size_t(1) << 26, SMALL_STACK = LARGE_STACK;
#else
const std::size_t LARGE_STACK = std::size_t(1) << 30, SMALL_STACK = std::size_t(1) << 26;
#endif

// How much memory copies have taken, in kilobytes: a large page may reach behind the last object.
static std::size_t copied() {
  const std::size_t whole = std::size_t(space.copied - space.begin), reached = pages() * PAGE + 2 * LARGE_PAGE,
                    size = reached < whole ? reached : whole;
  unsigned char *const seen = static_cast<unsigned char *>(std::malloc(size / PAGE + 1));
  std::size_t found = 0;
  for (int i = 1; i < workers && seen != nullptr; i++)
    for (int kind = 0; kind < KINDS; kind++) {
      if (all[i].off[kind] == nullptr || mincore(space.begin + distance(all[i].off[kind]), size, seen) != 0) continue;
      for (std::size_t page = 0; page < size / PAGE; page++) found += seen[page] & 1;
    }
  std::free(seen);
  return found * PAGE / 1024;
}

static double seconds(Time from, Time to) { return double(to - from) / 1e9; }

static void whole() {
  Time begun = now();
  program();
  Time ended = now();
  end_workers();
  const char *no_heap = std::getenv("COMMUTE_HEAP");
  if (no_heap == nullptr || std::strcmp(no_heap, "0") != 0) write_objects();
  out.flush();
  if (std::getenv("COMMUTE_TIMES") != nullptr) {
    std::fprintf(stderr, "seconds %.6f regions %lu tasks %lu copies %zu\n", seconds(begun, ended), regions_shared,
                 all_given(), copied());
  }
  _exit(0);
}

// As many as COMMUTE_THREADS says, else as this process may use.
static int told_workers() {
  const char *told = std::getenv("COMMUTE_THREADS");
  int count = told == nullptr ? 0 : std::atoi(told);
  const int found = find_usable();
  if (count < 1) count = found;
  return count < 1 ? 1 : count > MOST_WORKERS ? MOST_WORKERS : count;
}

static void make_workers() {
  const std::size_t size = std::size_t(workers) * sizeof(Worker) + alignof(Worker);
  void *it = reserved(size, PROT_READ | PROT_WRITE);
  if (it == nullptr) fail("no memory");
  all = static_cast<Worker *>(it);
  for (int i = 0; i < workers; i++) {
    all[i].index = i;
    all[i].top = &all[i].root;
    all[i].random = 12345u + 777u * unsigned(i);
    all[i].patience = SHORT_PATIENCE;
  }
}

// All objects have copies, or as many as memory has room for; behind these nothing is shared. True: all have.
static bool make_copies(std::size_t most) {
  const std::size_t whole = std::size_t(space.end - space.begin), least = 256 * PAGE;
  std::size_t size = most < whole ? most / PAGE * PAGE : whole;
  if (workers == 1 || COPIES == 0) return true;
  while (size >= least && !reserve_all_copies(size)) size = size / 2 / PAGE * PAGE;
  space.copied = space.begin + (size >= least ? size : 0);
  return size == whole;
}

static std::size_t stack_size;
static inline void *stack(std::size_t size) {
  void *it = nullptr;
  while (size > PAGE && (it = reserved(size, PROT_READ | PROT_WRITE)) == nullptr) size /= 2;
  if (it == nullptr) fail("no memory");
  stack_size = size;
  return it;
}

// The program runs on this thread, on a stack of its own; the thread sanitizer wants a thread.
#ifdef HAS_SANITIZER
static void *first(void *) {
  whole();
  return nullptr;
}
static void run_on_stack(std::size_t) {
  pthread_t thread;
  pthread_attr_t attributes;
  prepare(attributes);
  if (pthread_create(&thread, &attributes, first, nullptr) == 0) pthread_join(thread, nullptr);
}
#else
static void run_on_stack(std::size_t size) {
  static ucontext_t before, inside;
  void *at = stack(size);
  getcontext(&inside);
  inside.uc_stack.ss_sp = at;
  inside.uc_stack.ss_size = stack_size;
  inside.uc_link = &before;
  makecontext(&inside, whole, 0);
  swapcontext(&before, &inside);
}
#endif

int main() {
  rlimit limit;
  const bool is_limited =
      getrlimit(RLIMIT_AS, &limit) == 0 && limit.rlim_cur != RLIM_INFINITY && limit.rlim_cur / 8 * 5 < WHOLE_SPACE;
  reserve_objects(is_limited ? limit.rlim_cur / 2 / PAGE * PAGE : WHOLE_SPACE);
  workers = told_workers();
  make_workers();
  const std::size_t kinds = std::size_t(__builtin_popcount(COPIES)),
                    spaces = std::size_t(workers) * (kinds == 0 ? 1 : kinds);
  const bool has_room = make_copies(is_limited ? limit.rlim_cur / 4 / spaces : WHOLE_SPACE);
  const std::size_t size = has_room && !is_limited ? LARGE_STACK : SMALL_STACK;
  // Of what is left of a limit half is for the stacks of threads.
  const std::size_t part = is_limited ? limit.rlim_cur / 8 / std::size_t(workers) / PAGE * PAGE : size;
  thread_stack = part < PAGE * 64 ? PAGE * 64 : part < size ? part : size;
  run_on_stack(size);
}
