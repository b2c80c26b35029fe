// 400 calls, each of which adds 1,000 times to one object.
class Cell {
public:
  long n;
  void add(long v) { n = n + v; }
};
class Many {
public:
  Cell *c;
  void fill() { c = new Cell(); }
  void some(long k) {
    for (long i = 0; i < 1000; i++) c->add(i + k);
  }
};
int main() {
  Many *m = new Many();
  m->fill();
  for (long k = 0; k < 400; k++) m->some(k); // marked
  print(m->c->n);
}
