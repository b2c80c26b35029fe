// 300 bodies in the plane that attract each other, all pairs, four steps, in whole numbers.
class Body {
public:
  long x, y, m, vx, vy, ax, ay;
  void put(long px, long py, long n) {
    x = px;
    y = py;
    m = n;
  }
  long root(long n) {
    long r = 4096;
    for (long k = 0; k < 12; k++) r = (r + n / r) / 2 + 1;
    return r;
  }
  long force(long dx, long dy) {
    long d = root(dx * dx + dy * dy + 1000000);
    return 1000000000000 / (d * d) * 1024 / d;
  }
  void clear() {
    ax = 0;
    ay = 0;
  }
  void pull(Body *b) {
    long f = force(b->x - x, b->y - y);
    ax += f * (b->x - x) * b->m / 1048576;
    ay += f * (b->y - y) * b->m / 1048576;
  }
  void move() {
    vx += ax / 16;
    vy += ay / 16;
    x += vx / 16;
    y += vy / 16;
  }
};
class World {
public:
  Body *body[300];
  void make() {
    long seed = 17;
    for (long i = 0; i < 300; i++) {
      seed = (seed * 1103515245 + 12345) % 2147483648;
      long x = seed / 65536 % 200000;
      seed = (seed * 1103515245 + 12345) % 2147483648;
      body[i] = new Body();
      body[i]->put(x, seed / 65536 % 200000, i % 90 + 10);
    }
  }
  void pull_all(long i) {
    for (long j = 0; j < 300; j++) body[i]->pull(body[j]);
  }
  void step() {
    for (long i = 0; i < 300; i++) body[i]->clear();
    for (long i = 0; i < 300; i++) pull_all(i);
    for (long i = 0; i < 300; i++) body[i]->move();
  }
  long sum() {
    long s = 0;
    for (long i = 0; i < 300; i++) s = s + body[i]->x * 3 + body[i]->y;
    return s;
  }
};
int main() {
  World *world = new World();
  world->make();
  for (long t = 0; t < 4; t++) world->step();
  print(world->sum());
}
