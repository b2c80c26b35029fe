// 200,000 cells are marked from some roots and swept, round after round.
class Random {
public:
  long seed;
  void start(long s) { seed = s; }
  void next() { seed = (seed * 1103515245 + 12345) % 2147483648; }
  long pick(long n) { return seed / 65536 % n; }
};
class Heap;
class Stats {
public:
  long freed, sum;
  void live(long v) { sum += v; }
  void free() { freed += 1; }
};
class Cell {
public:
  bool mark;
  long value;
  Cell *a, *b, *next_all, *next_free;
  Stats *stats;
  bool dead;
  void start(long v, Cell *n, Stats *s) {
    value = v;
    next_all = n;
    stats = s;
  }
  void set_a(Cell *c) { a = c; }
  void set_b(Cell *c) { b = c; }
  void set_free(Cell *c) { next_free = c; }
  void trace() {
    if (!mark) {
      mark = true;
      stats->live(value);
      if (a != nullptr) a->trace();
      if (b != nullptr) b->trace();
    }
  }
  // Everything of the sweep but the list itself.
  void sweep() {
    bool was = mark;
    dead = !mark;
    mark = false;
    if (!was) {
      a = nullptr;
      b = nullptr;
    }
    if (!was) stats->free();
  }
};
class Heap {
public:
  Cell *cell[200000];
  Cell *root[8];
  Cell *all, *free_list;
  Stats *stats;
  void make(Random *r) {
    stats = new Stats();
    for (long i = 0; i < 200000; i++) {
      cell[i] = new Cell();
      cell[i]->start(i, all, stats);
      all = cell[i];
    }
    for (long i = 0; i < 200000; i++) {
      r->next();
      cell[i]->set_a(cell[r->pick(200000)]);
      r->next();
      if (r->pick(2) != 0) {
        r->next();
        cell[i]->set_b(cell[r->pick(200000)]);
      }
    }
    for (long k = 0; k < 8; k++) {
      r->next();
      root[k] = cell[r->pick(200000)];
    }
  }
  void trace(long k) { if (root[k] != nullptr) root[k]->trace(); }
  void trace_all() { for (long k = 0; k < 8; k++) trace(k); }
  void sweep() {
    for (long i = 0; i < 200000; i++) cell[i]->sweep();
    free_list = nullptr;
    Cell *c = all;
    while (c != nullptr) {
      if (c->dead) {
        c->set_free(free_list);
        free_list = c;
      }
      c = c->next_all;
    }
  }
  void allocate(long k) {
    for (long i = 0; i < 10; i++)
      if (free_list != nullptr) {
        Cell *c = free_list;
        free_list = c->next_free;
        c->set_a(root[k]);
        root[k] = c;
      }
  }
  void round(long n) {
    root[n] = nullptr;
    trace_all();
    sweep();
    for (long k = 4; k < 8; k++) allocate(k);
    for (long i = 0; i < 200000; i++) if (i % 7 == n) cell[i]->set_b(nullptr);
  }
};
int main() {
  Random *r = new Random();
  r->start(17);
  Heap *h = new Heap();
  h->make(r);
  for (long n = 0; n < 4; n++) h->round(n);
  print(h->stats->freed);
  print(h->stats->sum);
  return 0;
}
