// 20,000 calls go down a tree of 127 objects to one of 64 others, and multiply there: what leads there takes no lock.
class Leaf {
public:
  long n;
  void begin() { n = 1; }
  void times(long v) { n *= v; }
};
class Node {
public:
  long key;
  Node *left;
  Node *right;
  Leaf *leaf;
  void set(long k, Node *l, Node *r, Leaf *f) {
    key = k;
    left = l;
    right = r;
    leaf = f;
  }
  void route(long k, long v) {
    if (leaf != nullptr) {
      leaf->times(v);
    } else {
      if (k < key) {
        left->route(k, v);
      } else {
        right->route(k, v);
      }
    }
  }
};
class Tree {
public:
  Node *at[127];
  Leaf *leaves[64];
  void fill() {
    for (long i = 0; i < 127; i++) at[i] = new Node();
    for (long i = 0; i < 64; i++) {
      leaves[i] = new Leaf();
      leaves[i]->begin();
      at[63 + i]->set(i, nullptr, nullptr, leaves[i]);
    }
    long first = 0;
    long width = 64;
    long next = 1;
    for (long i = 0; i < 63; i++) {
      if (i == next) {
        first = i;
        width = width / 2;
        next = next * 2 + 1;
      }
      at[i]->set((i - first) * width + width / 2, at[2 * i + 1], at[2 * i + 2], nullptr);
    }
  }
  void all(long p) {
    for (long r = 0; r < 20000; r++) at[0]->route(r * 7 % 64, p + 2 * r);
  }
  long sum() {
    long s = 0;
    for (long i = 0; i < 64; i++) s = s + leaves[i]->n;
    return s;
  }
};
int main() {
  Tree *t = new Tree();
  t->fill();
  t->all(1); // marked
  print(t->sum());
}
