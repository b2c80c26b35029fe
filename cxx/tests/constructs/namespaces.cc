// Namespaces, aliases, local and nested classes, functions declared before.
#include <cstdio>
namespace geo {
struct Base {
  int b;
  Base(int b = 7) : b(b) {}
};
namespace deep {
int f(int x) { return x + 1; }
}  // namespace deep
int f(int x) { return deep::f(x) * 2; }
}  // namespace geo
namespace {
int hidden = 4;
}
using fixed = long long;
typedef unsigned word;
int later(int);
class Tree {
  struct Node {
    int v;
    Node *left = nullptr, *right = nullptr;
    Node(int x) : v(x) {}
  };
  Node *root = nullptr;
  int size = 0;
  void insert(Node *&n, int v);

public:
  void insert(int v) { insert(root, v); }
  int count() const { return size; }
  int height() const { return height(root); }

private:
  static int height(const Node *n) {
    if (!n) return 0;
    int l = height(n->left), r = height(n->right);
    return 1 + (l > r ? l : r);
  }
};
void Tree::insert(Node *&n, int v) {
  if (!n) {
    n = new Node(v);
    size++;
  } else if (v < n->v)
    insert(n->left, v);
  else if (v > n->v)
    insert(n->right, v);
}
int main() {
  struct Local {
    int a;
    int twice() const { return a * 2; }
  };
  Local l{21};
  geo::Base b;
  fixed big = 1LL << 33;
  word w = 4000000000u;
  Tree t;
  for (int i = 0; i < 20; i++) t.insert(i * 7 % 13);
  printf("%d %d %d %lld %u %d %d\n", l.twice(), b.b, geo::f(3) + hidden, big, w, later(5), t.count() * 100 + t.height());
}
int later(int x) { return x * x; }
