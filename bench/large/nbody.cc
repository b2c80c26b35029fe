// 400 bodies pull each other, pair by pair: four steps.
class Random {
public:
  long seed;
  void start(long s) { seed = s; }
  void next() { seed = (seed * 1103515245 + 12345) % 2147483648; }
  long pick(long n) { return seed / 65536 % n; }
};
class World;
class Stats {
public:
  long energy, far;
  void add(long e, long x) {
    energy += e;
    far = max(far, x);
  }
};
class Body {
public:
  long x, y, m, vx, vy, ax, ay;
  World *world;
  long number;
  void start(long px, long py, long n, long i, World *w) {
    number = i;
    world = w;
    x = px;
    y = py;
    m = n;
  }
  void clear() {
    ax = 0;
    ay = 0;
  }
  long root(long n) {
    long r = 4096;
    for (long k = 0; k < 12; k++) r = (r + n / r) / 2 + 1;
    return r;
  }
  void push(long fx, long fy) {
    ax += fx;
    ay += fy;
  }
  long pull(long dx, long dy) {
    long d = root(dx * dx + dy * dy + 1000000);
    return 1000000000000 / (d * d) * 1024 / d;
  }
  void meet(Body *b) {
    long dx = b->x - x;
    long dy = b->y - y;
    long f = pull(dx, dy);
    push(f * dx * b->m / 1048576, f * dy * b->m / 1048576);
    b->push(-(f * dx * m / 1048576), -(f * dy * m / 1048576));
  }
  void meet_all() {
    for (long j = number + 1; j < 400; j++) meet(world->body[j]);
  }
  void move() {
    vx += ax / 16;
    vy += ay / 16;
    x += vx / 16;
    y += vy / 16;
  }
  void report(Stats *s) { s->add(m * (vx * vx + vy * vy) / 2048, x); }
};
class World {
public:
  Body *body[400];
  void make(Random *r) {
    for (long i = 0; i < 400; i++) {
      r->next();
      long x = r->pick(200000);
      r->next();
      long y = r->pick(200000);
      r->next();
      body[i] = new Body();
      body[i]->start(x, y, r->pick(90) + 10, i, this);
    }
  }
  void step() {
    for (long i = 0; i < 400; i++) body[i]->clear();
    for (long i = 0; i < 400; i++) body[i]->meet_all();
    for (long i = 0; i < 400; i++) body[i]->move();
  }
};
int main() {
  Random *r = new Random();
  r->start(17);
  World *w = new World();
  w->make(r);
  for (long s = 0; s < 4; s++) w->step();
  Stats *s = new Stats();
  for (long i = 0; i < 400; i++) w->body[i]->report(s);
  print(s->energy);
  print(s->far);
  return 0;
}
