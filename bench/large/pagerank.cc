// 40,000 pages give shares of their rank to those that they link to, until little changes.
class Random {
public:
  long seed;
  void start(long s) { seed = s; }
  void next() { seed = (seed * 1103515245 + 12345) % 2147483648; }
  long pick(long n) { return seed / 65536 % n; }
};
class Stats {
public:
  long change, total, best;
  void clear() { change = 0; }
  void move(long d) { change += d; }
  void add(long rank) {
    total += rank;
    best = max(best, rank);
  }
};
class Page {
public:
  long rank, sum, degree;
  Page *out[6];
  Stats *stats;
  void start(Stats *s) {
    rank = 1048576;
    stats = s;
  }
  void link(Page *o) {
    out[degree] = o;
    degree++;
  }
  void gain(long s) { sum += s; }
  long share() { return rank / degree; }
  void give() {
    long s = share();
    for (long i = 0; i < degree; i++) out[i]->gain(s);
  }
  void settle() {
    long next = (15 * 1048576 + 85 * sum) / 100;
    long d = max(next - rank, rank - next);
    rank = next;
    sum = 0;
    stats->move(d);
  }
  void report() { stats->add(rank); }
};
class Web {
public:
  Random *r;
  Page *page[40000];
  Stats *stats;
  long rounds;
  void set(Random *x) {
    r = x;
    stats = new Stats();
  }
  void make() {
    for (long i = 0; i < 40000; i++) {
      page[i] = new Page();
      page[i]->start(stats);
    }
    for (long i = 0; i < 40000; i++) {
      r->next();
      long d = r->pick(6) + 1;
      for (long k = 0; k < d; k++) {
        r->next();
        page[i]->link(page[r->pick(40000)]);
      }
    }
  }
  void round() {
    for (long i = 0; i < 40000; i++) page[i]->give();
    stats->clear();
    for (long i = 0; i < 40000; i++) page[i]->settle();
    rounds++;
  }
  void run() {
    stats->move(1001);
    while (stats->change > 1000 && rounds < 20) round();
    for (long i = 0; i < 40000; i++) page[i]->report();
    print(rounds);
    print(stats->total);
    print(stats->best);
  }
};
int main() {
  Random *r = new Random();
  r->start(17);
  Web *w = new Web();
  w->set(r);
  w->make();
  w->run();
  return 0;
}
