// Sums over 1,000 objects in a loop of calls of a value method.
class Cell {
public:
  long n;
  void set(long v) { n = v; }
  long plus(long p) { return n + p; }
};
class Cells {
public:
  Cell *at[1000];
  void fill() {
    for (long i = 0; i < 1000; i++) at[i] = new Cell();
    for (long i = 0; i < 1000; i++) at[i]->set(i % 7);
  }
  long sum(long p) {
    long s = 0;
    for (long i = 0; i < 1000; i++) s = s + at[i]->plus(p);
    return s;
  }
};
int main() {
  Cells *c = new Cells();
  c->fill();
  long total = 0;
  for (long r = 0; r < 4000; r++) total = total + c->sum(r);
  print(total);
}
