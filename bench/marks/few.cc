// 1,000 calls, each of which makes one more, on a heap of 100,000 objects.
class Cell {
public:
  Cell *next;
  long n;
  void set(Cell *x) { next = x; }
  void add(long v) { n = n + v; }
  void both(long v) {
    n = n + v;
    next->add(v + 1);
  }
};
class Cells {
public:
  Cell *at[100000];
  void fill(long n) {
    for (long i = 0; i < n; i++) at[i] = new Cell();
    for (long i = 0; i < n; i++) at[i]->set(at[(i * 7 + 1) % n]);
  }
  long total(long n) {
    long s = 0;
    for (long i = 0; i < n; i++) s = s + at[i]->n;
    return s;
  }
};
int main() {
  Cells *c = new Cells();
  c->fill(100000);
  for (long r = 0; r < 1000; r++) {
    c->at[r * 37]->both(r); // marked
  }
  print(c->total(100000));
}
