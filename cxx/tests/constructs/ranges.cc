// What insert says, lists in braces as maps and sets, vectors of ranges, erase of ranges, max of more than two.
#include <algorithm>
#include <cstdio>
#include <functional>
#include <iterator>
#include <map>
#include <numeric>
#include <set>
#include <unordered_set>
#include <utility>
#include <vector>
struct Cell {
  int n;
  bool operator<(const Cell &other) const { return n < other.n; }
  bool operator==(const Cell &other) const { return n == other.n; }
};
int main() {
  std::set<int> seen = {4, 2, 8};
  std::map<int, int> table = {{3, 30}, {1, 10}};
  std::unordered_set<int> fast;
  int fresh = 0;
  for (int i = 0; i < 12; i++) {
    if (seen.insert(i % 7).second) fresh++;
    if (!fast.insert(i % 5).second) fresh += 100;
    auto put = table.insert({i % 4, i});
    if (put.second) fresh += 10000;
  }
  table.emplace(9, 90);
  printf("%d %zu %zu", fresh, seen.size(), fast.count(3));
  for (auto it = table.begin(); it != table.end();) {
    if (it->second > 20)
      it = table.erase(it);
    else
      ++it;
  }
  for (auto &[k, v] : table) printf(" %d=%d", k, v);
  std::vector<int> v(seen.begin(), seen.end()), w(v);
  v.erase(std::remove_if(v.begin(), v.end(), [](int x) { return x % 2 == 0; }), v.end());
  w.erase(w.begin() + 1, w.begin() + 3);
  int items[] = {6, 1, 6, 2};
  std::vector<int> u(items, items + 4);
  u.erase(std::remove(u.begin(), u.end(), 6), u.end());
  printf("\n%zu %zu %d %d %d %d\n", v.size(), w.size(), w[1], u[1], v == w, v != std::vector<int>{1, 3, 5});
  printf("%d %d %d\n", std::max({4, 9, 2}), std::min({7, 3}), std::max(-5, 3, [](int a, int b) { return a * a < b * b; }));
  Cell x{4}, y{6};
  printf("%d %d %d\n", std::max(x, y).n, std::min({x, y}).n, std::clamp(12, 1, 9));
  std::vector<Cell> cells = {{5}, {2}, {5}, {1}};
  cells.erase(std::remove(cells.begin(), cells.end(), Cell{5}), cells.end());
  std::vector<int> doubled(3);
  std::transform(w.begin(), w.begin() + 3, doubled.begin(), [](int n) { return 2 * n; });
  printf("%zu %d %d %ld %d\n", cells.size(), cells[0].n, doubled[2], std::distance(w.begin(), w.end()), *std::prev(w.end()));
  std::vector<int> all = {100}, some;
  all.insert(all.begin(), w.begin(), w.end());
  all.insert(all.end(), items + 1, items + 3);
  some.assign(all.begin() + 1, all.end());
  std::copy_if(some.begin(), some.end(), std::back_inserter(all), [](int x) { return x > 3; });
  std::sort(all.begin(), all.end(), std::greater<>());
  for (int x : all) printf("%d ", x);
  printf("%d %d\n", std::gcd(84, 36), std::accumulate(some.begin(), some.end(), 1, [](int a, int b) { return a * 3 + b; }));
  std::vector<int> order = {1, 2, 3};
  int count = 0;
  do count = count * 3 + order[0];
  while (std::next_permutation(order.begin(), order.end()));
  printf("%d %d %d\n", count, std::is_sorted(order.begin(), order.end()), std::equal(v.begin(), v.end(), w.begin()));
}
