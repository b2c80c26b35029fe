// emplace_back with the arguments of a constructor.
#include <cstdio>
#include <deque>
#include <functional>
#include <map>
#include <queue>
#include <set>
#include <stack>
#include <string>
#include <vector>
struct Node;
struct Edge {
  Node *to;
  int weight;
  Edge(Node *t, int w) : to(t), weight(w) {}
};
struct Node {
  int id;
  std::vector<Edge> edges;
  explicit Node(int number) : id(number) {}
  Node(int number, const char *name) : id(number), word(name) {}
  const char *word = "none";
};
struct Cell {
  long n = 4;
};
int main() {
  std::vector<Node *> all;
  for (int i = 0; i < 4; i++) all.emplace_back(new Node(i));
  for (int i = 0; i < 4; i++)
    for (int k = 0; k < i; k++) all[i]->edges.emplace_back(all[k], i * k);
  std::vector<Node> nodes;
  nodes.emplace_back(7);
  int nine = 9;
  nodes.emplace_back(nine, "nine");
  nodes.emplace_back(std::move(nodes[0]));
  std::vector<Cell> cells;
  cells.emplace_back();
  cells.back().n += 2;
  std::vector<long> numbers;
  numbers.emplace_back(nine);
  numbers.emplace_back(5);
  std::vector<std::pair<int, int>> pairs;
  pairs.emplace_back(1, nine);
  for (Node *n : all)
    for (const Edge &e : n->edges) printf("%d->%d %d\n", n->id, e.to->id, e.weight);
  printf("%d %s %d %s\n", nodes[1].id, nodes[1].word, nodes[2].id, nodes[2].word);
  printf("%ld %ld %ld %d %zu\n", cells[0].n, numbers[0], numbers[1], pairs[0].second, nodes.size());
  std::priority_queue<std::pair<int, int>, std::vector<std::pair<int, int>>, std::greater<std::pair<int, int>>> open;
  for (int i = 0; i < 6; i++) open.emplace(i * 5 % 7, nine);
  std::queue<Edge> line;
  line.emplace(all[1], 3);
  std::stack<Cell> pile;
  pile.emplace();
  std::deque<Edge> both;
  both.emplace_back(all[2], 4);
  both.emplace_front(all[3], 5);
  std::set<long> some;
  some.emplace(nine);
  some.emplace(9L);
  std::map<int, long> table;
  table.emplace(nine, 4);
  table.emplace(9, 5);
  printf("%d %d %ld %d %d\n", open.top().first, line.front().weight, pile.top().n, both[0].weight, both[1].to->id);
  printf("%zu %ld %zu\n", some.size(), table[9], table.size());
}
