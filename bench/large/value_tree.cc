// The sum over a tree of 2,000,000 nodes, by a value method, ten times.
class Node {
public:
  long value;
  Node *left, *right;
  void fill(long depth, long v) {
    value = v;
    if (depth > 1) {
      left = new Node();
      right = new Node();
      left->fill(depth - 1, 2 * v);
      right->fill(depth - 1, 2 * v + 1);
    }
  }
  long sum() {
    if (left == nullptr) return value % 1000;
    return value % 1000 + left->sum() + right->sum();
  }
};
int main() {
  Node *root = new Node();
  root->fill(21, 1);
  long total = 0;
  for (long i = 0; i < 10; i++) total += root->sum();
  print(total);
}
