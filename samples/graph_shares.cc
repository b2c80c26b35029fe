// Nodes hand shares of what they have to their neighbours, and a walk goes over all that can be reached.
class Node {
public:
  bool seen;
  long value;
  long degree;
  long gained;
  long visits;
  Node *next[3];
  void start(long v) {
    value = v;
  }
  void link(Node *n) {
    next[degree] = n;
    degree++;
  }
  // Adding changes places with adding, and no operation below writes value, degree or next.
  void gain(long v) {
    gained += v;
  }
  void share() {
    for (long i = 0; i < degree; i++) next[i]->gain(value / 3);
  }
  // The first visit walks on, whichever it is.
  void visit(long p) {
    visits++;
    gained = gained + p;
    if (!seen) {
      seen = true;
      for (long i = 0; i < degree; i++) next[i]->visit(value);
    }
  }
  // What is handed on is gained, which others change: this one stays serial.
  void pass() {
    if (next[0] != nullptr) next[0]->gain(gained);
  }
};
class Graph {
public:
  Node *at[8];
  void make() {
    for (long i = 0; i < 8; i++) {
      at[i] = new Node();
      at[i]->start(3 * i + 1);
    }
  }
  void connect(long i) {
    at[i]->link(at[(i + 1) % 8]);
    at[i]->link(at[i * i % 8]);
    at[i]->link(at[(3 * i + 5) % 8]);
  }
  void share() {
    for (long i = 0; i < 8; i++) at[i]->share();
  }
};
int main() {
  Graph *g = new Graph();
  g->make();
  for (long i = 0; i < 8; i++) g->connect(i);
  g->share();
  g->at[0]->visit(1);
  for (long i = 0; i < 8; i++) g->at[i]->pass();
  print(g->at[5]->gained);
  return 0;
}
