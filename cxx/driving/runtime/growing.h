// Not proved (../../README.md). Arrays that grow, and keep how long each kind of them became: for the run that finds
// lengths.
#pragma once
#include "program.h"
#include <cstdlib>

// Memory of objects is zero at first, and so is that of items. What was moved isn't freed, since one expression may
// name two items.
template <class Item, int NUMBER> struct Growing {
  Item *items;
  long length;
  static inline long longest = 0;
  Item &operator[](long at) {
    if (at < 0) fail("an index below 0");
    if (at >= longest) longest = at + 1;
    if (at >= length) grow(at);
    return items[at];
  }
  void grow(long at) {
    long wider = length > 0 ? 2 * length : 4;
    while (wider <= at) wider *= 2;
    Item *moved = static_cast<Item *>(std::calloc(std::size_t(wider), sizeof(Item)));
    if (moved == nullptr) fail("no memory");
    for (long i = 0; i < length; i++) moved[i] = items[i];
    items = moved;
    length = wider;
  }
  operator const void *() const { return nullptr; }
};
