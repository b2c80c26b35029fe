// status: 3
struct Node {
  Node *next = nullptr;
  int v = 0;
};
static int last(Node *n) { return n->next->v; }
int main() { return last(new Node); }
// refused: not ported: 6:28: a null pointer is followed: the run of the port ends here
