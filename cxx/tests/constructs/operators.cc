// Operators and overloads; references as results.
#include <cstdio>
#include <iostream>
class Grid {
  int w, at[20];

public:
  explicit Grid(int width) : w(width) {
    for (int &x : at) x = 0;
  }
  int &operator()(int r, int c) { return at[r * w + c]; }
  int operator()(int r, int c) const { return at[r * w + c]; }
  int &operator[](int i) { return at[i]; }
};
struct Money {
  long cents;
  Money(long c) : cents(c) {}
  Money operator-() const { return Money(-cents); }
  Money operator+(Money o) const { return Money(cents + o.cents); }
  Money &operator++() {
    cents++;
    return *this;
  }
  Money operator++(int) {
    Money old = *this;
    cents++;
    return old;
  }
  bool operator<(const Money &o) const { return cents < o.cents; }
  operator long() const { return cents; }
};
static bool operator>(const Money &a, const Money &b) { return b < a; }
static std::ostream &operator<<(std::ostream &os, const Money &m) { return os << m.cents / 100 << '.' << m.cents % 100; }
static int over(int) { return 1; }
static int over(long) { return 2; }
static int over(bool) { return 3; }
int main() {
  Grid g(5);
  g(1, 2) = 7;
  g[3] += 2;
  ++g(1, 2);
  const Grid &c = g;
  printf("%d %d\n", c(1, 2), g[3]);
  Money a(150), b = a + Money(275);
  Money old = a++;
  ++a;
  std::cout << a << ' ' << b << ' ' << old << ' ' << -b << '\n';
  printf("%d %d %d %ld\n", a > b, a < b, a > Money(3), (long)b);
  printf("%d %d\n", over(1L), over(true));
}
