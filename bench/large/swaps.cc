// 100,000 objects exchange two numbers each, 300 times: each under its lock.
class Pair {
public:
  long left, right;
  void start(long l, long r) {
    left = l;
    right = r;
  }
  void swap() {
    long t = left;
    left = right;
    right = t;
  }
};
class Pairs {
public:
  Pair *at[100000];
  void make() {
    for (long i = 0; i < 100000; i++) at[i] = new Pair();
    for (long i = 0; i < 100000; i++) at[i]->start(i, 0 - i);
  }
  long sum() {
    long s = 0;
    for (long i = 0; i < 100000; i++) s += at[i]->left * (i % 7);
    return s;
  }
};
int main() {
  Pairs *p = new Pairs();
  p->make();
  for (long r = 0; r < 301; r++) {
    for (long i = 0; i < 100000; i++) p->at[i]->swap();
  }
  print(p->sum());
}
