// Algorithms that give places, lists in braces as values, references as members, throw that ends the program.
#include <algorithm>
#include <cstdio>
#include <initializer_list>
#include <stdexcept>
#include <vector>
class Set {
  std::vector<int> at;

public:
  Set(std::initializer_list<int> given) : at(given) { std::sort(at.begin(), at.end()); }
  std::vector<int>::const_iterator lower(int x) const { return std::lower_bound(at.begin(), at.end(), x); }
  bool has(int x) const { return std::binary_search(at.begin(), at.end(), x); }
  std::size_t size() const { return at.size(); }
  const std::vector<int> &all() const { return at; }
};
class View {
  const std::vector<int> &of;
  int from;

public:
  View(const std::vector<int> &v, int f) : of(v), from(f) {}
  int first() const { return of[from]; }
  std::size_t left() const { return of.size() - from; }
  int sum() const {
    int s = 0;
    for (std::size_t i = from; i < of.size(); i++) s += of[i];
    return s;
  }
};
static int checked(int n) {
  if (n > 4) throw std::runtime_error("too many");
  return n * n;
}
int main() {
  Set s{9, 4, 7, 1, 8};
  View v(s.all(), 2);
  std::vector<int> w = {3, 3, 1, 5, 5, 5, 2};
  printf("%d %d %d %zu\n", *s.lower(5), s.has(7), s.has(6), s.size());
  printf("%d %zu %d\n", v.first(), v.left(), v.sum());
  auto most = std::max_element(w.begin(), w.end());
  printf("%d %ld %d\n", *most, most - w.begin(), *std::min_element(w.begin(), w.end()));
  w.erase(std::unique(w.begin(), w.end()) - 1);
  auto found = std::find(w.begin(), w.end(), 5);
  *found = 50;
  long even = std::count_if(w.begin(), w.end(), [](int x) { return x % 2 == 0; });
  printf("%zu %d %ld %d\n", w.size(), found != w.end(), even, std::any_of(w.begin(), w.end(), [](int x) { return x > 40; }));
  std::for_each(w.begin(), w.end(), [](int &x) { x++; });
  for (int x : w) printf("%d ", x);
  for (int i = 0; i < 10; i++) printf("%d\n", checked(i));
}
