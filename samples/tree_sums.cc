// What lies below each node of a tree: nodes send their values up, in place of sums that come back.
class Node {
public:
  long key;
  long below;
  Node *above;
  Node *left;
  Node *right;
  void start(long k, Node *a) {
    key = k;
    above = a;
  }
  void grow(long k) {
    if (k < key) {
      if (left == nullptr) {
        left = new Node();
        left->start(k, this);
      } else left->grow(k);
    } else {
      if (right == nullptr) {
        right = new Node();
        right->start(k, this);
      } else right->grow(k);
    }
  }
  void add(long v) {
    below += v;
    if (above != nullptr) above->add(v);
  }
  void walk() {
    if (above != nullptr) above->add(key);
    if (left != nullptr) left->walk();
    if (right != nullptr) right->walk();
  }
};
int main() {
  Node *root = new Node();
  root->start(50, nullptr);
  for (long i = 1; i < 16; i++) root->grow(37 * i % 101);
  root->walk();
  print(root->below);
  return 0;
}
