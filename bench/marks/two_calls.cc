// A marked loop of two calls on three objects, 20,000 times.
class Cell {
public:
  long n;
  void add(long v) { n = n + v; }
};
class Cells {
public:
  Cell *at[3];
  void fill() {
    for (long i = 0; i < 3; i++) at[i] = new Cell();
  }
};
int main() {
  Cells *c = new Cells();
  c->fill();
  for (long r = 0; r < 20000; r++) {
    for (long i = 0; i < 2; i++) c->at[i]->add(r); // marked
  }
  print(c->at[0]->n + c->at[1]->n);
}
