// References to numbers that somebody else changes by another name while the function runs.
#include <cstdio>
#include <vector>
static long g = -7, h = 5;
struct Count {
  long n = 1, seen = 0;
  void add(const long &more) {
    n += 3;
    seen += more;
  }
  long twice(long &other) {
    n = n * 2;
    return other + n;
  }
};
static long rounds(long &out) {
  long sum = 0;
  for (int i = 0; i < 4; i++) {
    g = (out & 1023) % 97 + i;
    sum = sum * 3 + g;
  }
  return sum;
}
static void inner() { h += 10; }
static long watched(const long &x) {
  long before = x;
  inner();
  return before * 100 + x;
}
static long passed(long &x, long y) {
  h = y;
  return watched(x) + x;
}
int main() {
  printf("%ld\n", rounds(g));
  printf("%ld\n", g);
  printf("%ld\n", rounds(h));
  long local = 4;
  printf("%ld\n", watched(h));
  printf("%ld\n", watched(local));
  printf("%ld\n", passed(h, 2));
  Count c, d;
  c.add(c.n);
  d.add(c.n);
  long twice = c.twice(c.n);
  printf("%ld %ld %ld\n", c.seen, d.seen, twice);
}
