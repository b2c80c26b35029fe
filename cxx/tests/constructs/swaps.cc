// swap, max, min, abs, pair, array, queue and stack.
#include <algorithm>
#include <array>
#include <cstdio>
#include <cstdlib>
#include <queue>
#include <stack>
#include <utility>
#include <vector>
struct P {
  int a, b;
};
int main() {
  int a = 3, b = -9;
  std::swap(a, b);
  std::vector<int> v{5, 1, 4, 2, 3};
  for (size_t i = 0; i < v.size(); i++)
    for (size_t j = i + 1; j < v.size(); j++)
      if (v[j] < v[i]) std::swap(v[i], v[j]);
  P p{1, 2}, q{3, 4};
  std::swap(p, q);
  printf("%d %d %d %d %d\n", a, b, std::abs(a), std::max(a, b), std::min(v[0], v[4]));
  for (int x : v) printf("%d ", x);
  printf("%d %d\n", p.a, q.b);
  std::pair<int, long> pr(4, 5);
  pr.second += pr.first;
  auto other = std::make_pair(1, 2);
  std::array<int, 4> arr{};
  arr[2] = 6;
  arr.fill(2);
  arr[1]++;
  int s = 0;
  for (size_t i = 0; i < arr.size(); i++) s = s * 10 + arr[i];
  printf("%ld %d %d\n", pr.second, other.first + other.second, s);
  std::queue<int> line;
  std::stack<int> pile;
  for (int i = 0; i < 5; i++) {
    line.push(i);
    pile.push(i);
  }
  line.pop();
  pile.pop();
  printf("%d %d %zu %zu\n", line.front(), pile.top(), line.size(), pile.size());
  std::priority_queue<int> heap;
  for (int i = 0; i < 10; i++) heap.push(i * 7 % 11);
  while (!heap.empty()) {
    printf("%d ", heap.top());
    heap.pop();
  }
  printf("\n");
}
