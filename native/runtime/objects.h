// Not proved: objects. They lie one behind the other in one reserved space, in the order of creation, and none lies
// over the border of a page unless it is long. Nothing is ever given back, and fresh memory is zero.
#pragma once
#include "machine.h"

struct Object {
  unsigned number;
  unsigned short kind; // its class, from 1 on
  std::atomic<bool> is_locked;
  unsigned char stamp; // of the last pass that saw it (apart.h)
};
// By class: told by the program's text.
extern const std::size_t SIZES[];

const std::size_t PAGE = 4096, LARGE_PAGE = std::size_t(1) << 21;
// Longer ones may lie over a border: there each field says which page it touches.
const std::size_t LONG_OBJECT = 1024;
#ifdef HAS_SANITIZER
const std::size_t WHOLE_SPACE = std::size_t(1) << 30;
#else
const std::size_t WHOLE_SPACE = std::size_t(1) << 36;
#endif

struct Space {
  char *begin, *end; // what is reserved
  char *next;        // where the next object comes
  char *usable;      // up to where memory may be used
  char *copied;      // up to where workers have copies
  unsigned count;    // objects
  std::size_t step;  // how much more becomes usable
};
static Space space;
// Whether there are objects of which workers have no copies, so that nothing can be shared any more.
static bool is_outgrown = false;

static inline void *reserved(std::size_t size, int protection) {
  void *it = mmap(nullptr, size, protection, MAP_PRIVATE | MAP_ANONYMOUS | MAP_NORESERVE, -1, 0);
  return it == MAP_FAILED ? nullptr : it;
}

// Large pages behind the first megabytes: one takes a millisecond to be made.
static inline void prefer_large_pages(char *at, std::size_t size) {
  if (size <= 8 * LARGE_PAGE) return;
  char *from = reinterpret_cast<char *>((reinterpret_cast<std::uintptr_t>(at) + 2 * LARGE_PAGE) & ~(LARGE_PAGE - 1));
  madvise(from, size - 3 * LARGE_PAGE, MADV_HUGEPAGE);
}

// Addresses alone are reserved, and made usable as objects come, so that a limit on memory counts what is used.
static inline void reserve_objects(std::size_t most) {
  std::size_t size = most;
  void *it = nullptr;
  while (size >= PAGE && (it = reserved(size, PROT_NONE)) == nullptr) size /= 2;
  if (it == nullptr) fail("no memory");
  space.begin = space.next = space.usable = static_cast<char *>(it);
  space.end = space.copied = space.begin + size / PAGE * PAGE;
  space.step = std::size_t(1) << 26;
  prefer_large_pages(space.begin, size);
}

__attribute__((noinline)) static inline void grow_to(char *end) {
  while (space.usable < end) {
    if (space.usable == space.copied) is_outgrown = true;
    char *const border = space.usable < space.copied ? space.copied : space.end;
    std::size_t left = std::size_t(border - space.usable), step = space.step < left ? space.step : left;
    if (step == 0) fail("no memory");
    while (mprotect(space.usable, step, PROT_READ | PROT_WRITE) != 0) {
      step = step / 2 / PAGE * PAGE;
      if (step == 0) fail("no memory");
    }
    space.usable += step;
    if (space.step < (std::size_t(1) << 32)) space.step *= 2;
  }
}

static inline char *page_of(char *at) {
  return reinterpret_cast<char *>(reinterpret_cast<std::uintptr_t>(at) & ~(PAGE - 1));
}

template <class Made> static inline Made *made() {
  const std::size_t size = (sizeof(Made) + 7) / 8 * 8;
  if (size <= LONG_OBJECT && RARE(space.next + size > page_of(space.next) + PAGE))
    space.next = page_of(space.next) + PAGE;
  if (RARE(space.next + size > space.usable)) grow_to(space.next + size);
  Made *it = reinterpret_cast<Made *>(space.next);
  space.next += size;
  it->number = space.count++;
  it->kind = Made::CLASS;
  return it;
}

static inline std::size_t pages() { return std::size_t(space.next - space.begin + PAGE - 1) / PAGE; }

// All objects, in the order of creation.
template <class Visit> static inline void each_object(const Visit &visit) {
  char *at = space.begin;
  for (unsigned i = 0; i < space.count; i++) {
    if (reinterpret_cast<Object *>(at)->kind == 0) at = page_of(at) + PAGE;
    Object &it = *reinterpret_cast<Object *>(at);
    visit(it);
    at += (SIZES[it.kind] + 7) / 8 * 8;
  }
}
