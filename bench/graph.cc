// A graph of 100,000 nodes with three edges each is built, and visited depth first ten times.
class Node {
public:
  Node *a;
  Node *b;
  Node *c;
  long seen;
  void link(Node *x, Node *y, Node *z) {
    a = x;
    b = y;
    c = z;
  }
  void visit(long r) {
    if (seen < r) {
      seen = r;
      a->visit(r);
      b->visit(r);
      c->visit(r);
    }
  }
};
class Graph {
public:
  Node *at[100000];
  void fill(long n) {
    for (long i = 0; i < n; i++) at[i] = new Node();
    for (long i = 0; i < n; i++) at[i]->link(at[(i * 7 + 1) % n], at[(i * 31 + 5) % n], at[(i + 1) % n]);
  }
  long total(long n) {
    long s = 0;
    for (long i = 0; i < n; i++) s = s + at[i]->seen;
    return s;
  }
  void visit(long r) { at[0]->visit(r); }
};
int main() {
  Graph *g = new Graph();
  g->fill(100000);
  for (long r = 1; r < 11; r++) g->visit(r);
  print(g->total(100000));
}
