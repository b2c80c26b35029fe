// An operation in a marked loop, with puts into fields and a call of an operation that does nothing.
class Node {
public:
  long count;
  long sum;
  long least;
  long most;
  long rest;
  Node *next;
  void visit(long p) { BODY }
  void none(long p) { }
  void join(Node *n) { next = n; }
};
int main() {
  Node *a = new Node();
  Node *b = new Node();
  a->join(b);
  for (long i = 0; i < CALLS; i++) a->visit(i);
}
