class Acc {
public:
  long sum;
  Acc *peer;
  void add(long p) { sum = sum + p; }
  void tie(Acc *q) { peer = q; }
};
int main() {
  Acc *a = new Acc();
  Acc *b = new Acc();
  a->add(3);
  b->add(4);
  a->tie(b);
  a->add(5);
  return 0;
}
