class Graph {
public:
  bool mark;
  long value;
  long sum;
  Graph *left;
  Graph *right;
  void init(long v, Graph *l, Graph *r) {
    value = v;
    left = l;
    right = r;
  }
  void visit(long p) {
    sum = sum + p;
    if (!mark) {
      mark = true;
      if (left != nullptr) left->visit(value);
      if (right != nullptr) right->visit(value);
    }
  }
};
int main() {
  Graph *a = new Graph();
  Graph *b = new Graph();
  a->init(3, b, b);
  b->init(5, a, nullptr);
  a->visit(1);
  return 0;
}
