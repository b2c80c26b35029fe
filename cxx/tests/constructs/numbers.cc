// Widths: int, short, char, unsigned, size_t, conversions that wrap.
#include <cstdint>
#include <cstdio>
enum Small : unsigned char { TINY = 200 };
int main() {
  signed char a = 200;
  unsigned char b = 300;
  short c = 70000;
  unsigned short d = 65535;
  d += 2;
  c -= 5000;
  c -= 30000;
  b *= 7;
  unsigned u = 3;
  u -= 5;
  printf("%d %d %d %d %u\n", a, b, c, d, u);
  uint64_t h = 14695981039346656037ull;
  for (int i = 0; i < 5; i++) h = (h ^ i) * 1099511628211ull;
  printf("%lu %lu %lu %d\n", h, h % 1000, h / 12345, h > 9223372036854775807ull);
  size_t n = 3;
  printf("%d %d\n", n - 4 > 10, (int)(n * 2 - 1));
  for (size_t i = n; i-- > 0;) printf("%zu ", i);
  uint32_t x = 2463534242u;
  for (int i = 0; i < 3; i++) {
    x ^= x << 13;
    x ^= x >> 17;
    x ^= x << 5;
    printf("%u ", x);
  }
  int64_t big = (int64_t)1 << 40;
  printf("%ld %d %d\n", big, (int)big, (int)(big + 17));
  Small s = TINY;
  printf("%d %d %u %ld\n", s + 100, ~5, ~5u, -17L >> 2);
  long negative = -1000;
  printf("%ld %ld %ld %u\n", negative / 7, negative % 7, negative >> 3, (unsigned)negative);
  int k = 7;
  printf("%d %ld %u\n", 1 << k, 3L << (k * 4), 0x80000000u >> k);
  uint64_t w = ~0ull;
  printf("%lu %lu %lu %lu\n", w >> 1, w >> k, w / 10, w % 10);
  bool t = 5, f = 0;
  printf("%d %d %d\n", t, f, t + t);
  unsigned r = 5;
  r = -r;
  printf("%u %lu\n", r, (unsigned long)-1L);
}
