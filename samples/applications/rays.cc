// How fast waves go at each place of a field, found from the times that straight rays take through it: the reconstruction
// by simultaneous corrections. A grid of squares has the slowness that is thought; a ray from the left to the right, or from
// above to below, knows the time that was measured. A step has these phases, each a loop over objects that may be taken in
// any order: project (the time of each ray through the grid as it is thought), residuals (measured less projected), forget,
// correct (each ray gives its residual to the squares on its way), update, smooth (with the four neighbours), settle, errors.
// The measured times come from a true slowness that each square has too; they are taken before the first step (measure).
class Band {
public:
  long squares, rays;
  void clear() { squares = 0; rays = 0; }
  void add(long e) { squares += e; rays += 1; }
};
class Cell {
public:
  long slow, next, truth, sum, hits;
  Cell *up, *down, *left, *right;
  void begin(long t) { truth = t; slow = 1000; }
  void link(Cell *u, Cell *d, Cell *l, Cell *r) { up = u; down = d; left = l; right = r; }
  void forget() { sum = 0; hits = 0; }
  void add(long v) { sum += v; hits += 1; }
  long over(long n, long by) {
    if (by == 0) return 0;
    else return n / by;
  }
  void update() { slow += over(sum, hits * 2); }
  void smooth() { next = (slow * 12 + up->slow + down->slow + left->slow + right->slow) / 16; }
  void settle() { slow = next; }
  long far() {
    if (slow < truth) return truth - slow;
    else return slow - truth;
  }
};
class Grid {
public:
  Cell *at[1024];
  // A quarter of the field is slower than the rest, and a lane through it faster.
  long truth(long column, long row) {
    if (column >= 8 && column < 20 && row >= 10 && row < 22) return 1400;
    if (row - column > 4 && row - column < 8) return 700;
    return 1000;
  }
  void make() {
    for (long i = 0; i < 1024; i++) {
      at[i] = new Cell();
      at[i]->begin(truth(i % 32, i / 32));
    }
    for (long i = 0; i < 1024; i++) {
      long row = i / 32;
      long column = i % 32;
      at[i]->link(at[max(row - 1, 0) * 32 + column], at[min(row + 1, 31) * 32 + column],
                  at[row * 32 + max(column - 1, 0)], at[row * 32 + min(column + 1, 31)]);
    }
  }
  // The square at the k-th of 64 places between two heights, which count from 0 to 2047.
  long place(bool down, long from, long to, long k) {
    long height = from + (to - from) * k / 64;
    if (down) return k / 2 * 32 + height / 64;
    else return height / 64 * 32 + k / 2;
  }
  long thought(bool down, long from, long to) {
    long sum = 0;
    for (long k = 0; k < 64; k++) sum = sum + at[place(down, from, to, k)]->slow;
    return sum;
  }
  long measured(bool down, long from, long to) {
    long sum = 0;
    for (long k = 0; k < 64; k++) sum = sum + at[place(down, from, to, k)]->truth;
    return sum;
  }
  void forget() { for (long i = 0; i < 1024; i++) at[i]->forget(); }
  void update() { for (long i = 0; i < 1024; i++) at[i]->update(); }
  void smooth() { for (long i = 0; i < 1024; i++) at[i]->smooth(); }
  void settle() { for (long i = 0; i < 1024; i++) at[i]->settle(); }
  long far() {
    long sum = 0;
    for (long i = 0; i < 1024; i++) sum = sum + at[i]->far();
    return sum;
  }
};
class Ray {
public:
  bool down;
  long from, to, seen, time, rest;
  Grid *grid;
  Band *band;
  void begin(bool d, long f, long t, Grid *g, Band *b) {
    down = d;
    from = f;
    to = t;
    grid = g;
    band = b;
  }
  void measure() { seen = grid->measured(down, from, to); }
  void project() { time = grid->thought(down, from, to); }
  void compare() { rest = seen - time; }
  void correct() { for (long k = 0; k < 64; k++) grid->at[grid->place(down, from, to, k)]->add(rest / 32); }
  void tell() { band->add(rest * rest); }
};
class Survey {
public:
  Grid *grid;
  Ray *at[4096];
  Band *band[16];
  long count;
  void begin(long sources, long receivers) {
    grid = new Grid();
    grid->make();
    for (long i = 0; i < 16; i++) band[i] = new Band();
    for (long s = 0; s < sources; s++) {
      for (long r = 0; r < receivers; r++) {
        at[count] = new Ray();
        at[count]->begin((s + r) % 2 == 1, height(s, sources), height(r, receivers), grid, band[count % 16]);
        count = count + 1;
      }
    }
  }
  long height(long i, long of) { return (2 * i + 1) * 1024 / of; }
  void measure() { for (long i = 0; i < count; i++) at[i]->measure(); }
  void project() { for (long i = 0; i < count; i++) at[i]->project(); }
  void residuals() { for (long i = 0; i < count; i++) at[i]->compare(); }
  void correct() { for (long i = 0; i < count; i++) at[i]->correct(); }
  void errors() { for (long i = 0; i < count; i++) at[i]->tell(); }
  void forget() { for (long i = 0; i < 16; i++) band[i]->clear(); }
  void step() {
    project();
    residuals();
    grid->forget();
    correct();
    grid->update();
    grid->smooth();
    grid->settle();
    forget();
    errors();
  }
  long error() {
    long squares = 0;
    long rays = 0;
    for (long i = 0; i < 16; i++) {
      squares = squares + band[i]->squares;
      rays = rays + band[i]->rays;
    }
    return squares / rays;
  }
};
int main() {
  Survey *s = new Survey();
  s->begin(24, 24);
  s->measure();
  for (long i = 0; i < 4; i++) {
    s->step();
    print(s->error());
    print(s->grid->far());
  }
  return 0;
}
