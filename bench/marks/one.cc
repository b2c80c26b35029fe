// 1,000 loops of one call each, on a heap of 100,000 objects.
class Cell {
public:
  long n;
  void add(long v) { n = n + v; }
};
class Cells {
public:
  Cell *at[100000];
  void fill(long n) {
    for (long i = 0; i < n; i++) at[i] = new Cell();
  }
};
int main() {
  Cells *c = new Cells();
  c->fill(100000);
  for (long r = 0; r < 1000; r++) {
    for (long i = 0; i < 1; i++) c->at[r % 1000]->add(r); // marked
  }
  print(c->at[0]->n);
}
