// Vectors and deques of numbers, pointers and structs.
#include <cstdio>
#include <deque>
#include <vector>
struct Item {
  int key, value;
};
struct Node {
  int id;
  std::vector<Node *> next;
  std::vector<int> marks;
  explicit Node(int i) : id(i) {}
};
static int sum(const std::vector<int> &v) {
  int s = 0;
  for (int x : v) s += x;
  return s;
}
static void twice(std::vector<int> &v) {
  for (int &x : v) x *= 2;
}
static std::vector<int> upto(int n) {
  std::vector<int> v;
  for (int i = 0; i < n; i++) v.push_back(i);
  return v;
}
int main() {
  std::vector<int> a{3, 1, 2}, b(4, 7), c = a;
  a.push_back(9);
  twice(c);
  c.pop_back();
  std::vector<int> d = upto(6);
  d.erase(d.begin() + 2);
  d.insert(d.begin() + 1, 50);
  printf("%d %d %d %d %zu %d\n", sum(a), sum(b), sum(c), sum(d), d.size(), d[1]);
  std::vector<Item> items;
  items.push_back({1, 10});
  items.push_back(Item{2, 20});
  Item one = items[0];
  one.value = 99;
  items.push_back(one);
  items[1].value++;
  for (Item &i : items) i.key *= 3;
  for (const Item &i : items) printf("%d:%d ", i.key, i.value);
  std::vector<std::vector<int>> rows(3, std::vector<int>(2, 5));
  rows[1][0] = 8;
  rows.push_back(a);
  printf("%d %zu\n", rows[0][0] + rows[1][0] + rows[3][3], rows.size());
  Node *root = new Node(0);
  for (int i = 1; i < 4; i++) root->next.push_back(new Node(i));
  for (Node *n : root->next) n->marks.resize(n->id + 1);
  root->next.back()->marks[2] = 6;
  printf("%d %zu %d\n", root->next.front()->id, root->next[2]->marks.size(), root->next[2]->marks.back() + sum(root->next[2]->marks));
  std::deque<int> q;
  for (int i = 0; i < 12; i++) {
    q.push_back(i);
    if (i % 3 == 0) q.push_front(-i);
    if (i % 4 == 3) q.pop_front();
  }
  q.pop_back();
  long h = 0;
  while (!q.empty()) {
    h = h * 7 + q.front();
    q.pop_front();
  }
  printf("%ld\n", h);
  a = b;
  a.clear();
  printf("%zu %zu %d\n", a.size(), b.size(), a.empty());
}
