// The game of life on 240 by 240 places: each counts its living neighbours, and then all settle, 20 times.
class Random {
public:
  long seed;
  void start(long s) { seed = s; }
  void next() { seed = (seed * 1103515245 + 12345) % 2147483648; }
  long pick(long n) { return seed / 65536 % n; }
};
class Count {
public:
  long living;
  void add() { living += 1; }
};
class Cell {
public:
  bool alive, next;
  Cell *near[8];
  void link(long k, Cell *c) { near[k] = c; }
  void live(bool a) { alive = a; }
  long around() {
    long count = 0;
    for (long i = 0; i < 8; i++) if (near[i]->alive) count++;
    return count;
  }
  void step() {
    long count = around();
    next = count == 3 || alive && count == 2;
  }
  void settle() { alive = next; }
  void report(Count *c) { if (alive) c->add(); }
};
class Life {
public:
  Cell *cell[57600];
  void make(Random *r) {
    for (long i = 0; i < 57600; i++) cell[i] = new Cell();
    for (long y = 0; y < 240; y++)
      for (long x = 0; x < 240; x++) {
        long k = 0;
        for (long dy = -1; dy <= 1; dy++)
          for (long dx = -1; dx <= 1; dx++)
            if (dx != 0 || dy != 0) {
              cell[y * 240 + x]->link(k, cell[(y + dy + 240) % 240 * 240 + (x + dx + 240) % 240]);
              k++;
            }
        r->next();
        cell[y * 240 + x]->live(r->pick(3) == 0);
      }
  }
  void step() {
    for (long i = 0; i < 57600; i++) cell[i]->step();
    for (long i = 0; i < 57600; i++) cell[i]->settle();
  }
};
int main() {
  Random *r = new Random();
  r->start(17);
  Life *l = new Life();
  l->make(r);
  for (long s = 0; s < 20; s++) l->step();
  Count *c = new Count();
  for (long i = 0; i < 57600; i++) l->cell[i]->report(c);
  print(c->living);
  return 0;
}
