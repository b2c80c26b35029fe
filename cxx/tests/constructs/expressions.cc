// Effects within expressions, in C++17's order.
#include <cstdio>
static int g = 5;
static int effect(int x) {
  g = g * 3 + x;
  return g;
}
struct Box {
  int n = 0;
  int next() { return ++n; }
};
int main() {
  int i = 0, x[6] = {0};
  x[i++] = i;
  x[i] = i++ + 2;
  int k = (i > 1 ? effect(1) : effect(2)), m = (g > 3 && effect(9) > 20) || effect(4);
  printf("%d %d %d %d %d\n", k, m, g, x[0] * 10 + x[1], i);
  int y, z;
  y = z = 4;
  y += z -= 1;
  int w = (y++, z--, y * z);
  printf("%d %d %d\n", y, z, w);
  Box b;
  int v[5] = {};
  v[b.next()] += b.next() * 10;
  printf("%d %d %d\n", v[1], v[2], b.n);
  int t = y > z ? y < 100 ? 1 : 2 : 3;
  t++;
  printf("%d\n", t);
  int c = 0;
  while (c < 5 && effect(c) > 0 && c++ < 3) g %= 50;
  printf("%d %d\n", c, g);
  int p = 3;
  if (int q = effect(1)) printf("%d %d\n", q, p);
  for (int a = 0, e = 10; a < e; a++, e -= 2) printf("%d ", a * e);
  printf("%d\n", !g + !!g);
}
