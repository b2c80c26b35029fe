// Not proved (../../README.md). The prints of a ported program as the bytes of the user's, and its ends as the user's.
//
// The ported text prints the number of a site, and then its values. What a site writes is in the program's text:
// `sites`, `strings`.
#pragma once
#include "program.h"
#include <cstdlib>
#include <string>

// One piece of what a site writes. A piece without a value is a text.
struct Piece {
  enum Way { END, TEXT, CHARACTER, STRING, TRUTH, SIGNED, UNSIGNED, PLAIN, FORMAT, WORD } way;
  const char *text;
  unsigned long size;
  int bits;
};
struct Literal {
  const char *text;
  unsigned long size;
};
// Told by the program's text.
extern const Piece *const sites[];
extern const Literal strings[];
extern const Literal assertions[];

// What words such as std::setw have set.
struct Stream {
  long width = 0;
  char fill = ' ';
  bool is_left = false, is_hexadecimal = false, has_words = false;
};
static Stream stream;
// The letters of a string that is no literal, from its first to its last: what is written depends on their number.
static std::string gathered;
static bool is_gathering = false;
static const Piece *due = nullptr;
static bool is_code_due = false;
// Who looks on sees each line when it is there.
static const bool is_terminal = isatty(1) != 0;
static const Time begun = now();

static void show_at_end();

// The end of the program: what exit and the end of main do.
[[noreturn]] static void leave(long code) {
  end_workers();
  out.flush();
  if (std::getenv("COMMUTE_TIMES") != nullptr) {
    std::fprintf(stderr, "seconds %.6f regions %lu tasks %lu\n", seconds(begun, now()), regions_shared, all_given());
#ifdef FORCED
    std::fprintf(stderr, "forced places %d shared %d\n", Forcing::places, Forcing::shared);
#endif
  }
  show_at_end();
  _exit(int(code & 255));
}

// A failed assertion.
static inline long stopped(long at) {
  out.flush();
  if (::write(2, assertions[at].text, assertions[at].size) < 0) _exit(1);
  std::abort();
}

static void padded(const char *text, unsigned long size) {
  const long missing = stream.width - long(size);
  stream.width = 0;
  if (stream.is_left) out.text(text, size);
  for (long i = 0; i < missing; i++) out.text(&stream.fill, 1);
  if (!stream.is_left) out.text(text, size);
}

static long of_bits(long value, int bits, bool is_signed) {
  if (bits >= 64) return value;
  const unsigned long whole = 1UL << bits, kept = static_cast<unsigned long>(value) & (whole - 1);
  return long(is_signed && kept >> (bits - 1) != 0 ? kept - whole : kept);
}

static void number(long value, const Piece &piece) {
  const bool is_signed = piece.way == Piece::SIGNED && !stream.is_hexadecimal;
  const long kept = of_bits(value, piece.bits, is_signed);
  char digits[32];
  const char *as = stream.is_hexadecimal ? "%lx" : is_signed ? "%ld" : "%lu";
  const int size = std::snprintf(digits, sizeof(digits), as, kept);
  padded(digits, static_cast<unsigned long>(size));
}

template <class Value> static void format(const char *as, Value value) {
  char inside[256];
  const int size = std::snprintf(inside, sizeof(inside), as, value);
  if (size < int(sizeof(inside))) return out.text(inside, static_cast<unsigned long>(size));
  std::string longer(static_cast<unsigned long>(size) + 1, '\0');
  std::snprintf(&longer[0], longer.size(), as, value);
  out.text(longer.c_str(), static_cast<unsigned long>(size));
}

static void formatted(long value, const Piece &piece) {
  const char letter = piece.text[piece.size - 1];
  if (letter == 's') return format(piece.text, strings[value].text);
  if (letter == 'c') return format(piece.text, int(value & 255));
  format(piece.text, of_bits(value, piece.bits, letter == 'd' || letter == 'i'));
}

static void change(const char *word, long value) {
  switch (word[0]) {
  case 's':
    if (std::strcmp(word, "setw") == 0) stream.width = value;
    else stream.fill = char(value);
    break;
  case 'l': stream.is_left = true; break;
  case 'r': stream.is_left = false; break;
  case 'h': stream.is_hexadecimal = true; break;
  case 'd': stream.is_hexadecimal = false; break;
  case 'b': stream.has_words = true; break;
  case 'n': stream.has_words = false; break;
  case 'o':
    is_gathering = true;
    gathered.clear();
    break;
  case 'c':
    // Behind the word stands printf's format, if it is one that writes the string.
    is_gathering = false;
    if (word[5] == 0) padded(gathered.data(), gathered.size());
    else format(word + 5, gathered.c_str());
    break;
  }
}

static void show(long value, const Piece &piece) {
  switch (piece.way) {
  case Piece::PLAIN: return out.value(of_bits(value, piece.bits, true));
  case Piece::SIGNED:
  case Piece::UNSIGNED: return number(value, piece);
  case Piece::FORMAT: return formatted(value, piece);
  case Piece::WORD: return change(piece.text, value);
  case Piece::CHARACTER: {
    const char letter = char(value);
    if (!is_gathering) return padded(&letter, 1);
    gathered.push_back(letter);
    return;
  }
  case Piece::STRING: return padded(strings[value].text, strings[value].size);
  case Piece::TRUTH: {
    const char *word = stream.has_words ? value != 0 ? "true" : "false" : value != 0 ? "1" : "0";
    return padded(word, std::strlen(word));
  }
  default: return;
  }
}

// The texts up to the next value; behind the last piece no site is due.
static void texts() {
  for (; due->way == Piece::TEXT; due++) out.text(due->text, due->size);
  if (due->way != Piece::END) return;
  due = nullptr;
  if (is_terminal) out.flush();
}

// The values of a site come before anything of it is written in the port; here they come one by one.
static void said(long value) {
  if (is_code_due) leave(value);
  if (due == nullptr) {
    is_code_due = value == 0;
    if (is_code_due) return;
    due = sites[value];
    return texts();
  }
  show(value, *due++);
  texts();
}
static inline void said(bool value) { said(long(value)); }
#define print said
