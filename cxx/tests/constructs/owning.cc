// Pointers that own: a tree of unique_ptr, moves that leave null, shared_ptr.
#include <cstdio>
#include <memory>
#include <utility>
#include <vector>
struct Node {
  int key;
  std::unique_ptr<Node> child[2];
  explicit Node(int k) : key(k) {}
};
class Tree {
  std::unique_ptr<Node> root;
  int size = 0;

public:
  void insert(int k) {
    if (!root) {
      root = std::make_unique<Node>(k);
      size++;
      return;
    }
    Node *n = root.get();
    while (n->key != k) {
      std::unique_ptr<Node> &next = n->child[k < n->key ? 0 : 1];
      if (!next) {
        next = std::make_unique<Node>(k);
        size++;
      }
      n = next.get();
    }
  }
  static int depth(const std::unique_ptr<Node> &n) {
    if (n == nullptr) return 0;
    int l = depth(n->child[0]), r = depth(n->child[1]);
    return 1 + (l > r ? l : r);
  }
  int depth() const { return depth(root); }
  int count() const { return size; }
};
struct Shape {
  virtual ~Shape() {}
  virtual int area() const = 0;
};
struct Square : Shape {
  int side;
  Square(int s) : side(s) {}
  int area() const override { return side * side; }
};
static std::unique_ptr<Shape> made(int n) { return std::make_unique<Square>(n); }
int main() {
  Tree t;
  for (int i = 0; i < 40; i++) t.insert(i * 17 % 31);
  std::vector<std::unique_ptr<Shape>> shapes;
  for (int i = 1; i < 5; i++) shapes.push_back(made(i));
  std::unique_ptr<Shape> last = std::make_unique<Square>(9);
  shapes.push_back(std::move(last));
  int sum = 0;
  for (const auto &s : shapes) sum += s->area();
  std::shared_ptr<Node> a = std::make_shared<Node>(5), b = a;
  b->key += 2;
  auto taken = std::move(a);
  printf("%d %d %d %d %d %d %d\n", t.count(), t.depth(), sum, last == nullptr, b->key, a == nullptr, (*taken).key);
}
