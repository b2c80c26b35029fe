// Lambdas: captures by value and by reference, of this, as arguments, as comparisons.
#include <algorithm>
#include <cstdio>
#include <vector>
struct Scale {
  int factor;
  long run(const std::vector<int> &v) {
    long sum = 0;
    int extra = 5;
    auto add = [&sum, extra, this](int x) { sum += (long)x * factor + extra; };
    for (int x : v) add(x);
    extra = 1000;
    auto show = [=](int y) { return y + extra + factor; };
    return sum * 10 + show(1);
  }
};
template <class F> static int twice(F f, int x) { return f(f(x)); }
template <class F> static void each(const std::vector<int> &v, const F &f) {
  for (int x : v) f(x);
}
static auto global = [](int a, int b) { return a * b; };
int main() {
  std::vector<int> v{5, 2, 8, 1, 9, 3};
  Scale s{3};
  int n = 5;
  auto h = [&](int q) -> int {
    n++;
    return q * 2;
  };
  int t = twice(h, n);
  each(v, [&n](int x) { n += x; });
  std::sort(v.begin(), v.end(), [](int a, int b) { return a > b; });
  struct P {
    int a, b;
  };
  std::vector<P> p;
  for (int i = 0; i < 30; i++) p.push_back({i % 4, i});
  std::sort(p.begin(), p.end(), [&](const P &x, const P &y) { return x.a < y.a; });
  long order = 0;
  for (const P &x : p) order = (order * 31 + x.b) % 1000003;
  auto twice_any = [](auto x) { return x + x; };
  printf("%ld %d %d %d %d %ld %d %ld %d\n", s.run(v), t, n, v[0], v[5], order, twice_any(4), twice_any(1L << 40), global(3, 4));
}
