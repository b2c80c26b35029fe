// A graph of 100,000 nodes with three edges each is visited once.
class Node {
public:
  bool mark;
  long value;
  long sum;
  Node *a;
  Node *b;
  Node *c;
  void link(long v, Node *x, Node *y, Node *z) {
    value = v;
    a = x;
    b = y;
    c = z;
  }
  void visit(long p) {
    sum = sum + p;
    if (!mark) {
      mark = true;
      a->visit(value);
      b->visit(value);
      c->visit(value);
    }
  }
};
class Graph {
public:
  Node *at[100000];
  void fill(long n) {
    for (long i = 0; i < n; i++) at[i] = new Node();
    for (long i = 0; i < n; i++) at[i]->link(i % 10, at[(i * 7 + 1) % n], at[(i * 31 + 5) % n], at[(i + 1) % n]);
  }
  long total(long n) {
    long s = 0;
    for (long i = 0; i < n; i++) s = s + at[i]->sum;
    return s;
  }
  Node *first() { return at[0]; }
};
int main() {
  Graph *g = new Graph();
  g->fill(100000);
  g->first()->visit(1); // marked
  print(g->total(100000));
}
