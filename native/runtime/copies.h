// Not proved: what operations of a region do to fields that many write, by the kind of the field, and how copies go
// into the objects in the end.
#pragma once
#include "numbers.h"
#include "workers.h"

// The kinds that a program has copies of, as bits: told by its text.
extern const unsigned COPIES;
template <Kind kind> static inline long joined(long field, long value) {
  switch (kind) {
  case SUM: return field + value;
  case PRODUCT: return field * value;
  case MAX: return max(field, value);
  case MIN: return min(field, value);
  case AND: return field & value;
  case OR: return field | value;
  default: return field ^ value;
  }
}

// A copy begins at 0, so each neutral number is kept as 0.
template <Kind kind> static inline long coded(long value) {
  switch (kind) {
  case PRODUCT: return value - 1;
  case MAX: return value ^ std::int64_t(std::uint64_t(1) << 63);
  case MIN: return value ^ std::int64_t(~std::uint64_t(0) >> 1);
  case AND: return ~value;
  default: return value;
  }
}
template <Kind kind> static inline long decoded(long value) { return kind == PRODUCT ? value + 1 : coded<kind>(value); }

static inline std::ptrdiff_t distance(char *off) { return reinterpret_cast<std::ptrdiff_t>(off); }

template <Kind kind> static inline void accumulate(Worker &w, long &field, long value) {
  char *const off = w.off[kind];
  long &own = *reinterpret_cast<long *>(reinterpret_cast<char *>(&field) + distance(off));
  if (kind == SUM || kind == OR || kind == XOR || off == nullptr)
    own = joined<kind>(own, value);
  else
    own = coded<kind>(joined<kind>(decoded<kind>(own), value));
}

// All who put to it put the same.
template <class Value, class Given> static inline void put(Value &field, Given value) {
  __atomic_store_n(&field, static_cast<Value>(value), __ATOMIC_RELAXED);
}

// Whether this is who sets the flag.
static inline bool once(bool &field) {
  if (__atomic_load_n(&field, __ATOMIC_RELAXED)) return false;
  if (!is_shared) return field = true;
  return !__atomic_exchange_n(&field, true, __ATOMIC_RELAXED);
}

// The lock of an object, up to the first call of its operation.
struct Locked {
  Object *it;
  explicit Locked(Object *of) : it(is_shared ? of : nullptr) {
    if (it == nullptr) return;
    while (RARE(it->is_locked.exchange(true, std::memory_order_acquire)))
      for (int turns = 0; it->is_locked.load(std::memory_order_relaxed); turns++)
        if (turns < 1000)
          pause_briefly();
        else
          sched_yield();
  }
  Locked(const Locked &) = delete;
  Locked &operator=(const Locked &) = delete;
  void give() {
    if (it != nullptr) it->is_locked.store(false, std::memory_order_release);
    it = nullptr;
  }
  ~Locked() { give(); }
};

// Folds

// What the others' copies of a page hold goes into its objects: word by word, since 0 changes nothing.
typedef long __attribute__((may_alias)) Word;
template <Kind kind> static inline void fold_words(Word *to, Word *from) {
  for (std::size_t k = 0; k < PAGE / sizeof(long); k++) {
    if (kind == SUM)
      to[k] += from[k];
    else if (from[k] != 0)
      to[k] = joined<kind>(to[k], decoded<kind>(from[k]));
    from[k] = 0;
  }
}

template <Kind kind> static inline void fold_kind(char *page) {
  if (!(COPIES >> kind & 1)) return;
  for (int i = 1; i < workers; i++) {
    Worker &w = all[i];
    if (!w.has_copies) continue;
    bool &is_touched = w.touched[kind][reinterpret_cast<std::uintptr_t>(page) / PAGE];
    if (!is_touched) continue;
    is_touched = false;
    fold_words<kind>(reinterpret_cast<Word *>(page), reinterpret_cast<Word *>(page + distance(w.off[kind])));
  }
}

static inline void fold(std::size_t page) {
  char *at = space.begin + page * PAGE;
  fold_kind<SUM>(at);
  fold_kind<PRODUCT>(at);
  fold_kind<MAX>(at);
  fold_kind<MIN>(at);
  fold_kind<AND>(at);
  fold_kind<OR>(at);
  fold_kind<XOR>(at);
}

// Space for copies of so many bytes of objects, at one distance from all of them. False: there is none.
static inline bool reserve_copies(Worker &w, int kind, std::size_t size) {
  void *marks = reserved(size / PAGE, PROT_READ | PROT_WRITE), *it = nullptr;
  if (marks == nullptr) return false;
  w.touched[kind] = reinterpret_cast<bool *>(marks) - reinterpret_cast<std::uintptr_t>(space.begin) / PAGE;
  if (w.index == 0) return true;
  if ((it = reserved(size, PROT_READ | PROT_WRITE)) == nullptr) return false;
  prefer_large_pages(static_cast<char *>(it), size);
  w.off[kind] = reinterpret_cast<char *>(static_cast<char *>(it) - space.begin);
  return true;
}

static inline void drop_copies(Worker &w, int kind, std::size_t size) {
  if (w.touched[kind] != nullptr)
    munmap(w.touched[kind] + reinterpret_cast<std::uintptr_t>(space.begin) / PAGE, size / PAGE);
  if (w.off[kind] != nullptr) munmap(space.begin + distance(w.off[kind]), size);
  w.touched[kind] = nullptr;
  w.off[kind] = nullptr;
}

static inline bool reserve_all_copies(std::size_t size) {
  bool is_there = true;
  for (int i = 0; i < workers; i++)
    for (int kind = 0; kind < KINDS; kind++)
      if (COPIES >> kind & 1) is_there = is_there && reserve_copies(all[i], kind, size);
  for (int i = 0; i < workers && !is_there; i++)
    for (int kind = 0; kind < KINDS; kind++) drop_copies(all[i], kind, size);
  return is_there;
}
