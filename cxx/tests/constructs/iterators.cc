// Pointers that walk: iterators, ranges, p++, algorithms over them.
#include <algorithm>
#include <cstdio>
#include <functional>
#include <numeric>
#include <vector>
struct Item {
  int key, value;
};
struct ByKey {
  bool operator()(const Item &a, const Item &b) const { return a.key < b.key; }
};
static int sum(const int *first, const int *last) {
  int s = 0;
  while (first != last) s += *first++;
  return s;
}
static void shift(int *p, int n) {
  for (int *end = p + n; p < end; ++p) *p += n;
}
static long walk(const std::vector<Item> &items) {
  long h = 0;
  for (std::vector<Item>::const_iterator it = items.begin(); it != items.end(); ++it) h = h * 31 + it->key * 7 + (*it).value;
  return h % 1000003;
}
int main() {
  int a[8] = {5, 3, 8, 1, 9, 2, 7, 4};
  printf("%d %d\n", sum(a, a + 8), sum(a + 2, &a[5]));
  shift(a + 1, 3);
  std::sort(a, a + 8);
  for (int x : a) printf("%d ", x);
  std::vector<int> v(40);
  std::iota(v.begin(), v.end(), 3);
  for (size_t i = 0; i < v.size(); i++) v[i] = v[i] * 7919 % 101;
  std::sort(v.begin(), v.end(), std::greater<int>());
  for (auto it = v.begin(); it != v.end(); it += 8) printf("%d ", *it);
  std::reverse(v.begin(), v.begin() + 5);
  printf("%d %d %ld\n", v[0], std::accumulate(v.begin(), v.end(), 0), std::count(v.begin(), v.end(), 50));
  std::vector<Item> items;
  for (int i = 0; i < 50; i++) items.push_back({i * 37 % 50, i});
  std::sort(items.begin(), items.end(), ByKey());
  printf("%ld\n", walk(items));
  for (auto it = items.begin(); it != items.end();) {
    if (it->value % 3 == 0)
      it = items.erase(it);
    else
      ++it;
  }
  std::vector<Item *> pointers;
  for (Item &i : items) pointers.push_back(&i);
  int keys = 0;
  for (auto it = pointers.begin(); it != pointers.end(); ++it) keys += (*it)->key;
  std::fill(a + 2, a + 4, 0);
  int *p = a;
  int d = *p++ * 100 + *p;
  printf("%zu %d %d %ld\n", items.size(), keys, d, p - a);
  int m[3][4] = {{1, 2, 3, 4}, {5, 6, 7, 8}, {9, 10, 11, 12}};
  printf("%d %d\n", sum(m[1], m[1] + 4), std::accumulate(&m[2][1], &m[2][3], 0));
}
