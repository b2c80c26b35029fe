// The sum over a tree of 1,000,000 nodes, each of which adds to one object, ten times.
class Sum {
public:
  long total;
  void add(long v) { total += v; }
};
class Tree {
public:
  long value;
  Tree *left, *right;
  void build(long depth, long v) {
    value = v;
    if (depth > 1) {
      left = new Tree();
      left->build(depth - 1, 2 * v);
      right = new Tree();
      right->build(depth - 1, 2 * v + 1);
    }
  }
  void treeadd(Sum *s) {
    s->add(value % 7);
    if (left != nullptr) left->treeadd(s);
    if (right != nullptr) right->treeadd(s);
  }
};
int main() {
  Tree *root = new Tree();
  root->build(20, 1);
  Sum *s = new Sum();
  for (long pass = 0; pass < 10; pass++) root->treeadd(s);
  print(s->total);
  return 0;
}
