// 1,000 times a loop adds to each of 1,000 objects.
class Cell {
public:
  long n;
  void add(long v) { n = n + v; }
};
class Cells {
public:
  Cell *at[1000];
  void fill() {
    for (long i = 0; i < 1000; i++) at[i] = new Cell();
  }
  long sum() {
    long s = 0;
    for (long i = 0; i < 1000; i++) s = s + at[i]->n;
    return s;
  }
};
int main() {
  Cells *c = new Cells();
  c->fill();
  for (long r = 0; r < 1000; r++) {
    for (long i = 0; i < 1000; i++) c->at[i]->add(i + r); // marked
  }
  print(c->sum());
}
