// Warmth spreads over a grid that is closed to a ring both ways, until a step changes little.
class Gauge {
public:
  long most;
  void clear() { most = 0; }
  void take(long change) { most = max(most, change); }
};
class Cell {
public:
  long now, next;
  Cell *up, *down, *left, *right;
  Gauge *gauge;
  void start(long warmth, Gauge *g) {
    now = warmth;
    gauge = g;
  }
  void link(Cell *u, Cell *d, Cell *l, Cell *r) {
    up = u;
    down = d;
    left = l;
    right = r;
  }
  // The four cells beside it are read, and now is what this phase doesn't write.
  long mean() { return (4 * now + up->now + down->now + left->now + right->now) / 8; }
  void step() {
    next = mean();
    gauge->take(max(mean() - now, now - mean()));
  }
  void swap() {
    long old = now;
    now = next;
    next = old;
  }
};
class Grid {
public:
  Gauge *gauge;
  Cell *at[16];
  void make() {
    gauge = new Gauge();
    for (long i = 0; i < 16; i++) at[i] = new Cell();
    for (long i = 0; i < 16; i++) at[i]->start(i * i * 10 % 170, gauge);
    for (long i = 0; i < 16; i++) {
      at[i]->link(at[(i + 12) % 16], at[(i + 4) % 16], at[i / 4 * 4 + (i + 3) % 4], at[i / 4 * 4 + (i + 1) % 4]);
    }
  }
  void turn() {
    gauge->clear();
    for (long i = 0; i < 16; i++) at[i]->step();
    for (long i = 0; i < 16; i++) at[i]->swap();
  }
};
int main() {
  Grid *g = new Grid();
  g->make();
  g->turn();
  while (g->gauge->most > 3) g->turn();
  print(g->gauge->most);
  return 0;
}
