// The game of life on a torus of 200 by 200 cells, 12 generations.
class Count {
public:
  long living;
  void add() { living += 1; }
};
class Cell {
public:
  long alive, next;
  Cell *near[8];
  void link(long k, Cell *c) { near[k] = c; }
  void live(long a) { alive = a; }
  long around() {
    long count = 0;
    for (long i = 0; i < 8; i++) count += near[i]->alive;
    return count;
  }
  void step() {
    long count = around();
    next = 0;
    if (count == 3 || alive == 1 && count == 2) next = 1;
  }
  void settle() { alive = next; }
  void report(Count *c) { if (alive == 1) c->add(); }
};
class Board {
public:
  Cell *cell[40000];
  long seed;
  void make() {
    seed = 17;
    for (long i = 0; i < 40000; i++) {
      cell[i] = new Cell();
      seed = (seed * 1103515245 + 12345) % 2147483648;
      if (seed / 65536 % 3 == 0) cell[i]->live(1);
    }
    for (long y = 0; y < 200; y++)
      for (long x = 0; x < 200; x++) {
        long k = 0;
        for (long dy = 199; dy <= 201; dy++)
          for (long dx = 199; dx <= 201; dx++)
            if (dx != 200 || dy != 200) {
              cell[y * 200 + x]->link(k, cell[(y + dy) % 200 * 200 + (x + dx) % 200]);
              k++;
            }
      }
  }
  void step() {
    for (long i = 0; i < 40000; i++) cell[i]->step();
    for (long i = 0; i < 40000; i++) cell[i]->settle();
  }
  void report(Count *c) {
    for (long i = 0; i < 40000; i++) cell[i]->report(c);
  }
};
int main() {
  Board *board = new Board();
  board->make();
  for (long g = 0; g < 12; g++) board->step();
  Count *count = new Count();
  board->report(count);
  print(count->living);
}
