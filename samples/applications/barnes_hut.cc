// Bodies that attract each other in the plane, by the method of Barnes and Hut, in whole numbers. The tree of squares has
// six rows and is made once; a body finds its square of the last row by a walk down. A step has these phases, each a loop
// over objects that may be taken in any order: clear, tree (each body adds to its square), centres (row by row, from its
// four parts), close, walk (the forces of all squares that are far enough, and of the parts of the others), velocities,
// positions, energies. Rows take turns in two fields, so that a row reads what none of its own writes.
class Sums {
public:
  long kinetic, potential;
  void clear() { kinetic = 0; potential = 0; }
  void add(long k, long p) { kinetic += k; potential += p; }
};
class Cell {
public:
  long x, y, half;
  Cell *a, *b, *c, *d;
  long even, even_x, even_y;
  long odd, odd_x, odd_y;
  long mass, centre_x, centre_y;
  void place(long px, long py, long h) { x = px; y = py; half = h; }
  void split() {
    long q = half / 2;
    a = new Cell(); b = new Cell();
    c = new Cell(); d = new Cell();
    a->place(x - q, y - q, q);
    b->place(x - q, y + q, q);
    c->place(x + q, y - q, q);
    d->place(x + q, y + q, q);
  }
  Cell *find(long px, long py) {
    if (a == nullptr) return this;
    if (px < x) {
      if (py < y) return a->find(px, py);
      else return b->find(px, py);
    } else {
      if (py < y) return c->find(px, py);
      else return d->find(px, py);
    }
  }
  void clear() { odd = 0; odd_x = 0; odd_y = 0; }
  void drop(long m, long mx, long my) { odd += m; odd_x += mx; odd_y += my; }
  void sum_even() {
    even = a->odd + b->odd + c->odd + d->odd;
    even_x = a->odd_x + b->odd_x + c->odd_x + d->odd_x;
    even_y = a->odd_y + b->odd_y + c->odd_y + d->odd_y;
  }
  void sum_odd() {
    odd = a->even + b->even + c->even + d->even;
    odd_x = a->even_x + b->even_x + c->even_x + d->even_x;
    odd_y = a->even_y + b->even_y + c->even_y + d->even_y;
  }
  long over(long n, long by) { if (by == 0) return 0; else return n / by; }
  void close() {
    mass = even + odd;
    centre_x = over(even_x + odd_x, even + odd);
    centre_y = over(even_y + odd_y, even + odd);
  }
  bool is_far(long px, long py) {
    long dx = centre_x - px;
    long dy = centre_y - py;
    return 16 * half * half < dx * dx + dy * dy;
  }
  bool is_own(long px, long py) {
    return a == nullptr && px >= x - half && px < x + half && py >= y - half && py < y + half;
  }
  long root(long n) { long r = 1048576; for (long k = 0; k < 14; k++) r = (r + n / r) / 2; return r; }
  long force(long m, long along, long dx, long dy) {
    long s = dx * dx + dy * dy + 1048576;
    return m * along * 4096 / (root(s) * (s / 65536 + 1));
  }
  // What the others of its own square pull.
  long own(long px, long py, long pm, bool across) {
    long dx = over(odd_x - pm * px, mass - pm) - px;
    long dy = over(odd_y - pm * py, mass - pm) - py;
    if (mass == pm) return 0;
    if (across) return force(mass - pm, dy, dx, dy);
    return force(mass - pm, dx, dx, dy);
  }
  long pull(long px, long py, long pm, bool across) {
    if (mass == 0) return 0;
    if (is_own(px, py)) return own(px, py, pm, across);
    if (a == nullptr || is_far(px, py)) {
      if (across) return force(mass, centre_y - py, centre_x - px, centre_y - py);
      else return force(mass, centre_x - px, centre_x - px, centre_y - py);
    }
    return a->pull(px, py, pm, across) + b->pull(px, py, pm, across)
        + c->pull(px, py, pm, across) + d->pull(px, py, pm, across);
  }
  long depth(long px, long py) {
    if (mass == 0 || is_own(px, py)) return 0;
    if (a == nullptr || is_far(px, py)) {
      long dx = centre_x - px;
      long dy = centre_y - py;
      return mass * 65536 / root(dx * dx + dy * dy + 1048576);
    }
    return a->depth(px, py) + b->depth(px, py) + c->depth(px, py) + d->depth(px, py);
  }
};
class Row {
public:
  Cell *at[1024];
  long count;
  void take(Cell *c) { at[count] = c; count += 1; }
  void grow(Row *below) {
    for (long i = 0; i < count; i++) {
      at[i]->split();
      below->take(at[i]->a);
      below->take(at[i]->b);
      below->take(at[i]->c);
      below->take(at[i]->d);
    }
  }
  void clear() { for (long i = 0; i < count; i++) at[i]->clear(); }
  void sum_even() { for (long i = 0; i < count; i++) at[i]->sum_even(); }
  void sum_odd() { for (long i = 0; i < count; i++) at[i]->sum_odd(); }
  void close() { for (long i = 0; i < count; i++) at[i]->close(); }
};
class Body {
public:
  long m, x, y, vx, vy, ax, ay, deep;
  Row *sky;
  Row *top;
  Sums *band;
  void set(long pm, long px, long py, Row *s, Row *t, Sums *b) { m = pm; x = px; y = py; sky = s; top = t; band = b; }
  void rest() { ax = 0; ay = 0; deep = 0; }
  void sit() { top->at[0]->find(x, y)->drop(m, m * x, m * y); }
  void walk() { for (long i = 0; i < 16; i++) feel(sky->at[i]); }
  void feel(Cell *c) { ax += c->pull(x, y, m, false); ay += c->pull(x, y, m, true); deep += c->depth(x, y); }
  void kick() { vx += ax; vy += ay; }
  long fold(long v) { return (v % 1048576 + 1048576) % 1048576; }
  void drift() { x = fold(x + vx); y = fold(y + vy); }
  void tell() { band->add(m * (vx * vx + vy * vy) / 2, 0 - m * deep / 2); }
};
class World {
public:
  long seed, count;
  Body *at[512];
  Row *row[6];
  Sums *band[16];
  void plant() {
    for (long i = 0; i < 6; i++) row[i] = new Row();
    for (long i = 0; i < 16; i++) band[i] = new Sums();
    Cell *c = new Cell();
    c->place(524288, 524288, 524288);
    row[0]->take(c);
    for (long i = 0; i < 5; i++) row[i]->grow(row[i + 1]);
  }
  void turn() { seed = (seed * 1103515245 + 12345) % 2147483648; }
  void fill(long n, long from) {
    count = n;
    seed = from;
    for (long i = 0; i < count; i++) {
      turn();
      long px = seed / 2048 % 1048576;
      turn();
      long py = seed / 2048 % 1048576;
      at[i] = new Body();
      at[i]->set(i % 97 + 1, px, py, row[2], row[0], band[i % 16]);
    }
  }
  void clear() { for (long i = 0; i < count; i++) at[i]->rest(); }
  void tree() { for (long i = 0; i < count; i++) at[i]->sit(); }
  void centres() { row[4]->sum_even(); row[3]->sum_odd(); row[2]->sum_even(); row[1]->sum_odd(); row[0]->sum_even(); }
  void walk() { for (long i = 0; i < count; i++) at[i]->walk(); }
  void velocities() { for (long i = 0; i < count; i++) at[i]->kick(); }
  void positions() { for (long i = 0; i < count; i++) at[i]->drift(); }
  void energies() { for (long i = 0; i < 16; i++) band[i]->clear(); for (long i = 0; i < count; i++) at[i]->tell(); }
  void step() {
    clear();
    row[5]->clear();
    tree();
    centres();
    for (long i = 0; i < 6; i++) row[i]->close();
    walk();
    velocities();
    positions();
    energies();
  }
  long kinetic() { long sum = 0; for (long i = 0; i < 16; i++) sum = sum + band[i]->kinetic; return sum; }
  long potential() { long sum = 0; for (long i = 0; i < 16; i++) sum = sum + band[i]->potential; return sum; }
};
int main() {
  World *w = new World();
  w->plant();
  w->fill(256, 7);
  for (long i = 0; i < 2; i++) {
    w->step();
    print(w->kinetic());
    print(w->potential());
  }
  return 0;
}
