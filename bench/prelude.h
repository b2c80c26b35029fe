// What a source of the language needs before it is C++.
#include <cstdio>
static void print(long v) { std::printf("%ld\n", v); }
static void print(bool v) { std::printf("%s\n", v ? "true" : "false"); }
static inline long max(long a, long b) { return a < b ? b : a; }
static inline long min(long a, long b) { return b < a ? b : a; }
