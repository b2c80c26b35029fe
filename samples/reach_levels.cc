// Which nodes can be reached, and in how many steps: calls that wait take the place of a list of what is to be done.
class Count {
public:
  long reached;
  long nearer;
  void clear() { nearer = 0; }
  void add() { reached += 1; }
  void found() { nearer += 1; }
};
class Node {
public:
  bool seen;
  long level, best;
  Node *next[2];
  Count *count;
  void start(Count *c, Node *a, Node *b) {
    level = 1000;
    best = 1000;
    count = c;
    next[0] = a;
    next[1] = b;
  }
  // Whichever call is first goes on; what it passes on is the same.
  void reach() {
    if (!seen) {
      seen = true;
      count->add();
      for (long i = 0; i < 2; i++) next[i]->reach();
    }
  }
  // A round of levels: all offer, and then all take the best offer.
  void offer(long l) { best = min(best, l); }
  void tell() {
    for (long i = 0; i < 2; i++) next[i]->offer(level + 1);
  }
  void settle() {
    bool nearer = best < level;
    level = best;
    if (nearer) count->found();
  }
};
class Graph {
public:
  Node *at[12];
  Count *count;
  void make() {
    count = new Count();
    for (long i = 0; i < 12; i++) at[i] = new Node();
    for (long i = 0; i < 12; i++) at[i]->start(count, at[(5 * i + 2) % 12], at[i * i % 10]);
  }
  void round() {
    count->clear();
    for (long i = 0; i < 12; i++) at[i]->tell();
    for (long i = 0; i < 12; i++) at[i]->settle();
  }
};
int main() {
  Graph *g = new Graph();
  g->make();
  g->at[3]->reach();
  print(g->count->reached);
  g->at[3]->offer(0);
  g->at[3]->settle();
  while (g->count->nearer > 0) g->round();
  return 0;
}
