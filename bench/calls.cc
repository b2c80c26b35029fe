// Many small calls of operations on many objects.
class Cell {
public:
  long sum;
  void add(long p) { sum = sum + p; }
};
class Cells {
public:
  Cell *at[1000];
  void fill() {
    for (long i = 0; i < 1000; i++) at[i] = new Cell();
  }
  void round(long p) {
    for (long i = 0; i < 1000; i++) at[i]->add(i + p);
  }
  long total() {
    long s = 0;
    for (long i = 0; i < 1000; i++) s = s + at[i]->sum;
    return s;
  }
};
int main() {
  Cells *c = new Cells();
  c->fill();
  for (long r = 0; r < 3000; r++) c->round(r);
  print(c->total());
}
