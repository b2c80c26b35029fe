// 40,000 sums into one object.
class Cell {
public:
  long n;
  void add(long v) { n = n + v; }
};
int main() {
  Cell *c = new Cell();
  for (long i = 0; i < 40000; i++) c->add(i); // marked
  print(c->n);
}
