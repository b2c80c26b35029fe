// One marked loop of 3,000 calls, each of which adds to each of 1,000 objects.
class Cell {
public:
  long n;
  void add(long v) { n = n + v; }
};
class Cells {
public:
  Cell *at[1000];
  void fill() {
    for (long i = 0; i < 1000; i++) at[i] = new Cell();
  }
  void all(long v) {
    for (long i = 0; i < 1000; i++) at[i]->add(i + v);
  }
  long sum() {
    long s = 0;
    for (long i = 0; i < 1000; i++) s = s + at[i]->n;
    return s;
  }
};
int main() {
  Cells *c = new Cells();
  c->fill();
  for (long r = 0; r < 3000; r++) c->all(r); // marked
  print(c->sum());
}
