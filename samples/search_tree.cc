// A search tree is grown key by key, and then takes many amounts at once.
class Tree {
public:
  long key;
  long sum;
  long below;
  long factor;
  Tree *left;
  Tree *right;
  void start(long k) {
    key = k;
    factor = 1;
  }
  // New nodes have numbers in the order of their creation: growing is serial.
  void grow(long k) {
    if (k < key) {
      if (left == nullptr) {
        left = new Tree();
        left->start(k);
      } else left->grow(k);
    } else {
      if (right == nullptr) {
        right = new Tree();
        right->start(k);
      } else right->grow(k);
    }
  }
  // Once it is grown, keys and branches are constants, and an amount finds its way beside others.
  void add(long k, long amount) {
    below += amount;
    if (k == key) sum += amount;
    if (k < key && left != nullptr) left->add(k, amount);
    if (k > key && right != nullptr) right->add(k, amount);
  }
  void scale(long by) {
    factor *= by;
    if (left != nullptr) left->scale(by);
    if (right != nullptr) right->scale(by);
  }
  // Adding and multiplying don't change places in one field.
  void mix(long by) {
    below = below * by;
    add(key, by);
  }
  long total() {
    long t = sum * factor;
    if (left != nullptr) t += left->total();
    if (right != nullptr) t += right->total();
    return t;
  }
};
int main() {
  Tree *root = new Tree();
  root->start(50);
  for (long i = 1; i < 40; i++) root->grow(37 * i % 101);
  for (long i = 0; i < 400; i++) root->add(37 * (i % 40) % 101, i);
  root->scale(3);
  root->mix(2);
  print(root->total());
  print(root->below);
  return 0;
}
