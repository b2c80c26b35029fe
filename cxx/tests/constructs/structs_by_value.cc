// Structs that are copied: assigned, passed, given back, within others.
#include <cstdio>
struct Vec {
  long x, y;
  Vec operator+(const Vec &o) const { return {x + o.x, y + o.y}; }
  Vec operator*(long k) const { return Vec{x * k, y * k}; }
  Vec &operator+=(const Vec &o) {
    x += o.x;
    y += o.y;
    return *this;
  }
  bool operator==(const Vec &o) const { return x == o.x && y == o.y; }
};
struct Body {
  Vec at{0, 0}, by{1, 2};
  int hits[3] = {1, 2, 3};
  void step() { at += by * 2; }
};
static Vec middle(Vec a, Vec b) {
  a += b;
  a.x /= 2;
  a.y /= 2;
  return a;
}
static Body made(int k) {
  Body b;
  b.by.x = k;
  b.hits[1] = k;
  return b;
}
int main() {
  Vec a{1, 2}, b = a, c;
  b.x = 10;
  c = a + b * 3;
  c += a;
  Body p, q;
  p.step();
  q = p;
  q.step();
  q.hits[0] = 7;
  Body r = made(5);
  Body copy = r;
  copy.hits[1] = 99;
  copy.at = middle(c, q.at);
  printf("%ld %ld %ld %ld %ld %ld\n", a.x, b.x, c.x, c.y, p.at.x, q.at.y);
  printf("%d %d %d %d %ld %ld\n", p.hits[0], q.hits[0], r.hits[1], copy.hits[1], copy.at.x, copy.at.y);
  printf("%d %d\n", a == Vec{1, 2}, a == b);
  Body all[2] = {p, q};
  all[0].at = Vec{8, 8};
  printf("%ld %ld %ld\n", all[0].at.x, p.at.x, all[1].at.x);
}
