// A tree of 3,000 objects is walked 100 times, with two sums at each.
class Node {
public:
  Node *left;
  Node *right;
  long a;
  long b;
  void set(Node *l, Node *r) {
    left = l;
    right = r;
  }
  void walk(long v) {
    a = a + v;
    b = b + v * 2;
    if (left != nullptr) left->walk(v + 1);
    if (right != nullptr) right->walk(v + 2);
  }
};
class Nodes {
public:
  Node *at[3000];
  void fill() {
    for (long i = 0; i < 3000; i++) at[i] = new Node();
    for (long i = 0; i < 1499; i++) at[i]->set(at[2 * i + 1], at[2 * i + 2]);
  }
  long sum() {
    long s = 0;
    for (long i = 0; i < 3000; i++) s = s + at[i]->a + at[i]->b * 3;
    return s;
  }
};
int main() {
  Nodes *n = new Nodes();
  n->fill();
  for (long r = 0; r < 100; r++) n->at[0]->walk(r); // marked
  print(n->sum());
}
