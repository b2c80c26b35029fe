// Who is reached how early from one node of a graph of 200,000.
class Random {
public:
  long seed;
  void start(long s) { seed = s; }
  void next() { seed = (seed * 1103515245 + 12345) % 2147483648; }
  long pick(long n) { return seed / 65536 % n; }
};
class Count {
public:
  long nearer, reached, sum, most;
  void clear() { nearer = 0; }
  void found() { nearer += 1; }
  void add(long l) {
    reached += 1;
    sum += l;
    most = max(most, l);
  }
};
class Node {
public:
  long level, best;
  bool fresh;
  Node *out[3];
  Count *count;
  void start(Count *c) {
    level = 1000000;
    best = 1000000;
    count = c;
  }
  void link(long k, Node *o) { out[k] = o; }
  void offer(long l) { best = min(best, l); }
  void tell() {
    if (fresh) for (long i = 0; i < 3; i++) out[i]->offer(level + 1);
  }
  void settle() {
    bool nearer = best < level;
    level = best;
    fresh = nearer;
    if (nearer) count->found();
  }
  void report() { if (level < 1000000) count->add(level); }
};
class Graph {
public:
  Random *r;
  Node *node[200000];
  Count *count;
  void set(Random *x) {
    r = x;
    count = new Count();
  }
  void make() {
    for (long i = 0; i < 200000; i++) {
      node[i] = new Node();
      node[i]->start(count);
    }
    for (long i = 0; i < 200000; i++)
      for (long k = 0; k < 3; k++) {
        r->next();
        node[i]->link(k, node[r->pick(200000)]);
      }
  }
  void round() {
    count->clear();
    for (long i = 0; i < 200000; i++) node[i]->tell();
    for (long i = 0; i < 200000; i++) node[i]->settle();
  }
  void search() {
    node[0]->offer(0);
    node[0]->settle();
    while (count->nearer > 0) round();
    for (long i = 0; i < 200000; i++) node[i]->report();
  }
};
int main() {
  Random *r = new Random();
  r->start(17);
  Graph *g = new Graph();
  g->set(r);
  g->make();
  g->search();
  print(g->count->reached);
  print(g->count->sum);
  print(g->count->most);
  return 0;
}
