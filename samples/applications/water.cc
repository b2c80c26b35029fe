// Molecules of water in the plane, in whole numbers. A molecule has an oxygen and two hydrogens, which are three places with
// speeds and forces. A step has these phases, each a loop over objects that may be taken in any order: predict (the places
// move by their speeds), rest, inside (the springs within a molecule), pairs (each molecule feels each block of eight others:
// charges between all places, and what keeps two oxygens apart), correct (the speeds change by the forces), fold, energies.
class Sums {
public:
  long kinetic, potential;
  void clear() { kinetic = 0; potential = 0; }
  void add(long k, long p) { kinetic += k; potential += p; }
};
class Molecule {
public:
  long ox, oy, px, py, qx, qy;
  long ovx, ovy, pvx, pvy, qvx, qvy;
  long ofx, ofy, pfx, pfy, qfx, qfy, deep;
  Molecule *next;
  Sums *band;
  void begin(long x, long y, long vx, long vy, Sums *b) {
    ox = x; oy = y;
    px = x + 160; py = y + 120;
    qx = x - 160; qy = y + 120;
    ovx = vx; ovy = vy;
    pvx = vx; pvy = vy;
    qvx = vx; qvy = vy;
    band = b;
  }
  void tie(Molecule *m) { next = m; }
  void predict() {
    ox += ovx / 64; oy += ovy / 64;
    px += pvx / 64; py += pvy / 64;
    qx += qvx / 64; qy += qvy / 64;
  }
  void rest() {
    ofx = 0; ofy = 0;
    pfx = 0; pfy = 0;
    qfx = 0; qfy = 0;
    deep = 0;
  }
  // A spring of this length between two places, along one of the two ways.
  long spring(long along, long dx, long dy, long length) { return along * (dx * dx + dy * dy - length * length) / 65536; }
  void inside() {
    ofx += spring(px - ox, px - ox, py - oy, 200) + spring(qx - ox, qx - ox, qy - oy, 200);
    ofy += spring(py - oy, px - ox, py - oy, 200) + spring(qy - oy, qx - ox, qy - oy, 200);
    pfx += spring(ox - px, ox - px, oy - py, 200) + spring(qx - px, qx - px, qy - py, 320);
    pfy += spring(oy - py, ox - px, oy - py, 200) + spring(qy - py, qx - px, qy - py, 320);
    qfx += spring(ox - qx, ox - qx, oy - qy, 200) + spring(px - qx, px - qx, py - qy, 320);
    qfy += spring(oy - qy, ox - qx, oy - qy, 200) + spring(py - qy, px - qx, py - qy, 320);
  }
  // What a place of this charge at this distance pushes along one of the two ways. In the plane that goes with the distance.
  long push(long charge, long along, long dx, long dy) { return charge * along * 65536 / (dx * dx + dy * dy + 1024); }
  // What this molecule does to a charge at a place.
  long push_x(long x, long y, long c) {
    return push(0 - 2 * c, x - ox, x - ox, y - oy) + push(c, x - px, x - px, y - py) + push(c, x - qx, x - qx, y - qy);
  }
  long push_y(long x, long y, long c) {
    return push(0 - 2 * c, y - oy, x - ox, y - oy) + push(c, y - py, x - px, y - py) + push(c, y - qy, x - qx, y - qy);
  }
  // What keeps the oxygen at a place away, by the sixth and twelfth powers of the distance.
  long apart(long along, long dx, long dy) {
    long s = dx * dx + dy * dy + 4096;
    long t = 160000 * 1024 / s;
    if (s > 4000000) return 0;
    t = min(t * t / 1024 * t / 1024, 65536);
    return along * (2 * t * t / 1024 - t) * 64 / s;
  }
  long depth(long x, long y) {
    long s = (x - ox) * (x - ox) + (y - oy) * (y - oy) + 4096;
    long t = 160000 * 1024 / s;
    if (s > 4000000) return 0;
    t = min(t * t / 1024 * t / 1024, 65536);
    return (t * t / 1024 - t) / 16;
  }
  // The same of all molecules of a block but this one.
  long all_x(Molecule *m, long x, long y, long c) {
    long sum = 0;
    while (m != nullptr) {
      if (m != this) sum = sum + m->push_x(x, y, c);
      m = m->next;
    }
    return sum;
  }
  long all_y(Molecule *m, long x, long y, long c) {
    long sum = 0;
    while (m != nullptr) {
      if (m != this) sum = sum + m->push_y(x, y, c);
      m = m->next;
    }
    return sum;
  }
  long all_apart(Molecule *m, bool across) {
    long sum = 0;
    while (m != nullptr) {
      if (m != this && across) sum = sum + apart(oy - m->oy, ox - m->ox, oy - m->oy);
      if (m != this && !across) sum = sum + apart(ox - m->ox, ox - m->ox, oy - m->oy);
      m = m->next;
    }
    return sum;
  }
  long all_depth(Molecule *m) {
    long sum = 0;
    while (m != nullptr) {
      if (m != this) sum = sum + m->depth(ox, oy);
      m = m->next;
    }
    return sum;
  }
  void feel(Molecule *block) {
    ofx += all_x(block, ox, oy, 0 - 2) + all_apart(block, false);
    ofy += all_y(block, ox, oy, 0 - 2) + all_apart(block, true);
    pfx += all_x(block, px, py, 1);
    pfy += all_y(block, px, py, 1);
    qfx += all_x(block, qx, qy, 1);
    qfy += all_y(block, qx, qy, 1);
    deep += all_depth(block);
  }
  // An oxygen weighs sixteen hydrogens.
  void correct() {
    ovx += ofx / 256; ovy += ofy / 256;
    pvx += pfx / 16; pvy += pfy / 16;
    qvx += qfx / 16; qvy += qfy / 16;
  }
  long beyond(long v) {
    if (v < 0) return 8192;
    if (v >= 8192) return 0 - 8192;
    return 0;
  }
  void fold() {
    px += beyond(ox);
    qx += beyond(ox);
    py += beyond(oy);
    qy += beyond(oy);
    ox = ox + beyond(ox);
    oy = oy + beyond(oy);
  }
  void tell() {
    band->add(8 * (ovx * ovx + ovy * ovy) + (pvx * pvx + pvy * pvy + qvx * qvx + qvy * qvy) / 2, deep / 2);
  }
};
class Box {
public:
  long count, blocks, seed;
  Molecule *at[512];
  Molecule *block[64];
  Sums *band[16];
  void turn() { seed = (seed * 1103515245 + 12345) % 2147483648; }
  long speed() { return seed / 65536 % 129 - 64; }
  void begin(long n, long from) {
    blocks = n;
    seed = from;
    for (long i = 0; i < 16; i++) band[i] = new Sums();
    for (long i = 0; i < 8 * blocks; i++) {
      turn();
      long vx = speed();
      turn();
      at[i] = new Molecule();
      at[i]->begin(i % 16 * 512 + 256, i / 16 * 512 + 256, vx, speed(), band[i % 16]);
      at[i]->tie(block[i / 8]);
      block[i / 8] = at[i];
    }
    count = 8 * blocks;
  }
  void predict() { for (long i = 0; i < count; i++) at[i]->predict(); }
  void rest() { for (long i = 0; i < count; i++) at[i]->rest(); }
  void inside() { for (long i = 0; i < count; i++) at[i]->inside(); }
  void against(long b) { for (long i = 0; i < count; i++) at[i]->feel(block[b]); }
  void pairs() { for (long b = 0; b < blocks; b++) against(b); }
  void correct() { for (long i = 0; i < count; i++) at[i]->correct(); }
  void fold() { for (long i = 0; i < count; i++) at[i]->fold(); }
  void clear() { for (long i = 0; i < 16; i++) band[i]->clear(); }
  void energies() { for (long i = 0; i < count; i++) at[i]->tell(); }
  void step() {
    predict();
    rest();
    inside();
    pairs();
    correct();
    fold();
    clear();
    energies();
  }
  long energy(bool moving) {
    long sum = 0;
    for (long i = 0; i < 16; i++) {
      if (moving) sum = sum + band[i]->kinetic;
      else sum = sum + band[i]->potential;
    }
    return sum;
  }
};
int main() {
  Box *box = new Box();
  box->begin(6, 11);
  for (long i = 0; i < 3; i++) {
    box->step();
    print(box->energy(true));
    print(box->energy(false));
  }
  return 0;
}
