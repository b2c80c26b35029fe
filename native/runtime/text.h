// Not proved: what a program writes: its prints, and then its objects.
#pragma once
#include "objects.h"

struct Out {
  char buffer[1 << 16];
  std::size_t used = 0;
  void flush() {
    for (std::size_t at = 0; at < used;) {
      ssize_t sent = ::write(1, buffer + at, used - at);
      if (sent <= 0) _exit(1);
      at += std::size_t(sent);
    }
    used = 0;
  }
  void text(const char *it, std::size_t size) {
    for (; size > 0;) {
      if (used == sizeof(buffer)) flush();
      std::size_t part = size < sizeof(buffer) - used ? size : sizeof(buffer) - used;
      std::memcpy(buffer + used, it, part);
      used += part;
      it += part;
      size -= part;
    }
  }
  void text(const char *it) { text(it, std::strlen(it)); }
  void number(unsigned long value) {
    char digits[24];
    std::size_t at = sizeof(digits);
    do digits[--at] = char('0' + value % 10);
    while ((value /= 10) != 0);
    text(digits + at, sizeof(digits) - at);
  }
  void value(long it) {
    if (it < 0) text("-", 1);
    number(it < 0 ? 0UL - static_cast<unsigned long>(it) : static_cast<unsigned long>(it));
  }
  void value(bool it) { text(it ? "true" : "false"); }
  void value(const void *it) {
    if (it == nullptr) return text("null");
    text("#", 1);
    number(static_cast<const Object *>(it)->number);
  }
  void head(const Object &it, const char *name) {
    text("#", 1);
    number(it.number);
    text(" ", 1);
    text(name);
  }
  void name(const char *it) {
    text(" ", 1);
    text(it);
    text("=", 1);
  }
  template <class Value> void field(const char *called, const Value &it) {
    name(called);
    value(it);
  }
  template <class Value, std::size_t size> void field(const char *called, const Value (&items)[size]) {
    name(called);
    text("[", 1);
    for (std::size_t i = 0; i < size; i++) {
      if (i > 0) text(",", 1);
      value(items[i]);
    }
    text("]", 1);
  }
};

static Out out;

static inline void print(long it) {
  out.value(it);
  out.text("\n", 1);
}
static inline void print(bool it) {
  out.value(it);
  out.text("\n", 1);
}

// The class and the fields of an object: told by the program's text.
void write_fields(Out &out, const Object &it);

static void write_objects() {
  each_object([](const Object &it) {
    write_fields(out, it);
    out.text("\n", 1);
  });
}
