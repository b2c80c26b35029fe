// Arguments whose order C++ leaves open, and which g++ evaluates from right to left; in braces it is from left to right.
#include <cstdio>
#include <memory>
#include <vector>
static int n;
static int next() { return ++n; }
struct Point {
  int x, y;
  Point(int a, int b) : x(a), y(b) {}
  int far(int a, int b, const Point &c) const { return (a * 10 + b) * 100 + c.x * 10 + c.y; }
};
static void swapped(int &a, int b, int &c) {
  a += b;
  c -= b;
}
static int from(const int *first, const int *last, int more) {
  int sum = more;
  for (; first != last; ++first) sum = sum * 3 + *first;
  return sum;
}
int main() {
  printf("%d %d\n", next(), next());
  Point *p = new Point(next(), next());
  Point q(next() * 2, next()), r{next(), next()};
  printf("%d %d %d %d %d %d\n", p->x, p->y, q.x, q.y, r.x, r.y);
  n = 0;
  printf("%d\n", q.far(next(), next(), Point(next(), next())));
  std::vector<Point> all;
  all.emplace_back(next(), next());
  all.push_back(*std::make_unique<Point>(next(), next()));
  for (const Point &one : all) printf("%d %d\n", one.x, one.y);
  std::vector<int> v = {4, 1, 6, 3};
  int a = 1, i = 0;
  swapped(v[i++], next(), v[i]);
  swapped(a, next(), a);
  printf("%d %d %d\n", v[0], v[1], a);
  printf("%d\n", from(&v[0] + n % 2, v.data() + 3, next()));
}
