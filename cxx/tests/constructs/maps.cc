// map and set; functions that give references to numbers; structured bindings.
#include <cstdio>
#include <map>
#include <set>
#include <string>
#include <vector>
class Matrix {
  std::vector<long> at;
  int columns;

public:
  Matrix(int r, int c) : at(r * c), columns(c) {}
  long &item(int r, int c) {
    int i = r * columns + c;
    return at[i];
  }
};
class Book {
  long open = 0, closed = 0;

public:
  long &cell(bool which) {
    if (!which) open++;
    return open;
  }
  long sum() const { return open * 100 + closed; }
};
int main() {
  std::map<int, int> seen;
  for (int i = 0; i < 60; i++) seen[i * i % 17]++;
  seen[40] += 5;
  seen.erase(0);
  for (const auto &p : seen) printf("%d:%d ", p.first, p.second);
  auto it = seen.find(4);
  if (it != seen.end()) printf("found %d ", it->second);
  printf("%d %zu %zu\n", seen.find(3) == seen.end(), seen.count(9), seen.size());
  std::map<std::string, std::vector<int>> lists;
  const char *names[] = {"pear", "fig", "apple", "fig"};
  for (int i = 0; i < 4; i++) lists[names[i]].push_back(i);
  for (auto &[name, list] : lists) {
    list.push_back(9);
    printf("%s %zu %d\n", name.c_str(), list.size(), list[0]);
  }
  std::set<long> s;
  for (long i = 0; i < 30; i++) s.insert(i * 7 % 11);
  s.erase(5);
  long h = 0;
  for (long x : s) h = h * 3 + x;
  Matrix m(3, 4);
  m.item(1, 2) = 6;
  m.item(1, 2) *= 7;
  m.item(2, 0)++;
  Book b;
  b.cell(false) += 3;
  b.cell(true)--;
  auto [q, r] = std::pair<int, int>(17 / 5, 17 % 5);
  printf("%ld %ld %ld %ld %d %zu\n", h, m.item(1, 2), m.item(2, 0) + m.item(0, 0), b.sum(), q * 10 + r, s.count(4));
}
