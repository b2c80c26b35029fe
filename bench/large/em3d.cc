// Electromagnetic waves on two kinds of 20,000 nodes, each of which takes ten of the other kind: 16 steps.
class Random {
public:
  long seed;
  void next() { seed = (seed * 1103515245 + 12345) % 2147483648; }
  long pick(long n) { return seed / 65536 % n; }
  void start(long s) { seed = s; }
};
class H;
class E {
public:
  long value;
  E *next;
  H *from[10];
  long coeff[10];
  void start(long v, E *n) {
    value = v;
    next = n;
  }
  void link(long i, H *f, long c) {
    from[i] = f;
    coeff[i] = c;
  }
  long taken() {
    long t = 0;
    for (long i = 0; i < 10; i++) t += coeff[i] * from[i]->value / 1024;
    return t;
  }
  void compute() { value -= taken(); }
};
class H {
public:
  long value;
  H *next;
  E *from[10];
  long coeff[10];
  void start(long v, H *n) {
    value = v;
    next = n;
  }
  void link(long i, E *f, long c) {
    from[i] = f;
    coeff[i] = c;
  }
  long taken() {
    long t = 0;
    for (long i = 0; i < 10; i++) t += coeff[i] * from[i]->value / 1024;
    return t;
  }
  void compute() { value -= taken(); }
};
class World {
public:
  Random *r;
  E *e[20000];
  H *h[20000];
  void set(Random *x) { r = x; }
  void make_e() {
    E *list = nullptr;
    for (long i = 19999; i >= 0; i--) {
      E *node = new E();
      r->next();
      node->start(r->pick(1000), list);
      list = node;
      e[i] = node;
    }
  }
  void connect_e() {
    for (long k = 0; k < 20000; k++)
      for (long i = 0; i < 10; i++) {
        r->next();
        H *f = h[r->pick(20000)];
        r->next();
        e[k]->link(i, f, r->pick(50) + 1);
      }
  }
  void make_h() {
    H *list = nullptr;
    for (long i = 19999; i >= 0; i--) {
      H *node = new H();
      r->next();
      node->start(r->pick(1000), list);
      list = node;
      h[i] = node;
    }
  }
  void connect_h() {
    for (long k = 0; k < 20000; k++)
      for (long i = 0; i < 10; i++) {
        r->next();
        E *f = e[r->pick(20000)];
        r->next();
        h[k]->link(i, f, r->pick(50) + 1);
      }
  }
  void step() {
    for (long i = 0; i < 20000; i++) e[i]->compute();
    for (long i = 0; i < 20000; i++) h[i]->compute();
  }
};
int main() {
  World *w = new World();
  Random *r = new Random();
  r->start(783);
  w->set(r);
  w->make_e();
  w->make_h();
  w->connect_e();
  w->connect_h();
  for (long s = 0; s < 16; s++) w->step();
  long sum = 0;
  E *n = w->e[0];
  while (n != nullptr) {
    sum = sum * 31 + n->value;
    n = n->next;
  }
  print(sum);
  return 0;
}
