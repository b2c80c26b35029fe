// 2,000 calls, each of which multiplies 30 times into one of 100 objects.
class Cell {
public:
  long n;
  void set(long v) { n = v; }
  void times(long v) { n *= v; }
  void thirty(long v) {
    for (long i = 0; i < 30; i++) times(v + 2 * i);
  }
};
class Cells {
public:
  Cell *at[100];
  void fill() {
    for (long i = 0; i < 100; i++) {
      at[i] = new Cell();
      at[i]->set(2 * i + 1);
    }
  }
  void all(long p) {
    for (long r = 0; r < 2000; r++) at[r % 100]->thirty(p + 2 * r);
  }
  long sum() {
    long s = 0;
    for (long i = 0; i < 100; i++) s = s + at[i]->n;
    return s;
  }
};
int main() {
  Cells *c = new Cells();
  c->fill();
  c->all(1); // marked
  print(c->sum());
}
