// The least spanning tree of a graph of 500 nodes, whose edges stand in hash tables: the nearest node comes next.
class Entry {
public:
  long key, value;
  Entry *next;
  void set(long k, long v, Entry *n) {
    key = k;
    value = v;
    next = n;
  }
};
class Best {
public:
  long key;
  void clear() { key = 9000000000; }
  void offer(long k) { key = min(key, k); }
};
class Vertex {
public:
  long number, mindist;
  bool in;
  Graph *graph;
  Entry *bucket[16];
  void start(long i, Graph *g) {
    number = i;
    mindist = 1000000;
    graph = g;
  }
  void put(long k, long v) {
    Entry *e = new Entry();
    e->set(k, v, bucket[k % 16]);
    bucket[k % 16] = e;
  }
  long get(long k) {
    Entry *e = bucket[k % 16];
    while (e != nullptr) {
      if (e->key == k) return e->value;
      e = e->next;
    }
    return 1000000;
  }
  long dist(long i, long j) {
    return (min(i, j) * 7919 + max(i, j) * 104729) % 9973 + 1;
  }
  void connect(long n) {
    for (long j = 0; j < n; j++) if (j != number && (number + j) % 3 != 1) put(j, dist(number, j));
  }
  void near() {
    if (!in) mindist = min(mindist, get(graph->inserted->number));
  }
  void tell() {
    if (!in) graph->best->offer(4096 * mindist + number);
  }
  void enter() { in = true; }
};
class Graph {
public:
  Vertex *at[500];
  Vertex *inserted;
  Best *best;
  long cost;
  void make(long n) {
    best = new Best();
    for (long i = 0; i < n; i++) {
      at[i] = new Vertex();
      at[i]->start(i, this);
      at[i]->connect(n);
    }
    inserted = at[0];
    at[0]->enter();
  }
  void blue_rule() {
    for (long i = 0; i < 500; i++) at[i]->near();
    best->clear();
    for (long i = 0; i < 500; i++) at[i]->tell();
    inserted = at[best->key % 4096];
    inserted->enter();
    cost += best->key / 4096;
  }
};
int main() {
  Graph *g = new Graph();
  g->make(500);
  for (long left = 499; left > 0; left--) g->blue_rule();
  print(g->cost);
  print(g->inserted->number);
  return 0;
}
