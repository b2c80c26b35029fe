// Not proved (../../README.md). Clocks at loops and recursions: how much of the run lies in each, for the report.
#pragma once
#include "program.h"

struct Begun {
  int number;
};
struct Ended {
  int number;
};
// Of what calls itself the outermost run is taken.
struct Clock {
  Time sum, begun;
  long runs, depth;
};
// Told by the program's text.
extern Clock clocks[];

static inline void said(Begun it) {
  Clock &clock = clocks[it.number];
  clock.runs++;
  if (clock.depth++ == 0) clock.begun = now();
}
static inline void said(Ended it) {
  Clock &clock = clocks[it.number];
  if (--clock.depth == 0) clock.sum += now() - clock.begun;
}
static void show_clocks(int count) {
  std::fprintf(stderr, "commute-share all %.9f 1\n", seconds(begun, now()));
  for (int i = 0; i < count; i++) {
    const Time running = clocks[i].depth > 0 ? now() - clocks[i].begun : 0;
    std::fprintf(stderr, "commute-share %d %.9f %ld\n", i, double(clocks[i].sum + running) / 1e9, clocks[i].runs);
  }
}
