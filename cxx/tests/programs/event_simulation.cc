// A discrete event simulation of a small computer network: packets go from node to node along routes, wait in the nodes'
// queues, are lost when a queue is full, and are sent again by their source after a timeout.
#include <cstdio>
#include <cstdlib>
#include <queue>
#include <vector>

typedef long Time;

static const int NODES = 12;
static const int CAPACITY = 4;
static const Time END = 4000;
static const Time TIMEOUT = 220;

struct Packet {
  int id;
  int source, target;
  int hops = 0;
  int tries = 1;
  Time born;
  bool arrived = false;
  Packet(int id, int source, int target, Time born) : id(id), source(source), target(target), born(born) {}
};

enum EventKind { ARRIVAL, DEPARTURE, GENERATE, CHECK };

struct Event {
  Time at;
  long order;
  EventKind kind;
  int node;
  Packet *packet;
};

struct Later {
  bool operator()(const Event &a, const Event &b) const {
    if (a.at != b.at) return a.at > b.at;
    return a.order > b.order;
  }
};

class Generator {
  unsigned x;

public:
  Generator(unsigned seed = 88172645u) : x(seed) {}
  unsigned operator()() {
    x ^= x << 13;
    x ^= x >> 17;
    x ^= x << 5;
    return x;
  }
  int uniform(int low, int high) { return low + (int)((*this)() % (unsigned)(high - low + 1)); }
};

class Link {
public:
  int to;
  int delay;
  long carried;
  Link(int t, int d) : to(t), delay(d), carried(0) {}
};

class Node {
  int number;
  std::vector<Link> links;
  std::queue<Packet *> waiting;
  bool sending;

public:
  long lost, forwarded;
  size_t most;

  Node() : number(0), sending(false), lost(0), forwarded(0), most(0) {}

  void setup(int n) {
    number = n;
    links.push_back(Link((n + 1) % NODES, 7 + n % 4));
    links.push_back(Link((n + NODES - 1) % NODES, 9));
    if (n % 3 == 0) links.push_back(Link((n + NODES / 2) % NODES, 15));
  }

  bool idle() const { return !sending && !waiting.empty(); }
  void start() { sending = true; }
  void stop() { sending = false; }

  bool accept(Packet *p) {
    if (waiting.size() >= (size_t)CAPACITY) {
      lost++;
      return false;
    }
    waiting.push(p);
    if (waiting.size() > most) most = waiting.size();
    return true;
  }

  Packet *next() {
    Packet *p = waiting.front();
    waiting.pop();
    forwarded++;
    return p;
  }

  static int distance(int a, int b) {
    int d = abs(a - b);
    return d < NODES - d ? d : NODES - d;
  }

  Link &route(int target) {
    int best = 0;
    for (int i = 1; i < (int)links.size(); i++)
      if (distance(links[i].to, target) < distance(links[best].to, target)) best = i;
    return links[best];
  }

  long carried() const {
    long sum = 0;
    for (const Link &l : links) sum += l.carried;
    return sum;
  }
  int degree() const { return (int)links.size(); }
  int id() const { return number; }
};

class Simulator {
  std::priority_queue<Event, std::vector<Event>, Later> agenda;
  Node nodes[NODES];
  Generator random;
  Time now;
  long order;
  int made, delivered, resent, given_up;
  long total_time, total_hops;
  long histogram[8];

  void schedule(Time delay, EventKind kind, int node, Packet *p) {
    Event e = {now + delay, order++, kind, node, p};
    agenda.push(e);
  }

  void try_to_send(int n) {
    if (nodes[n].idle()) {
      nodes[n].start();
      schedule(random.uniform(3, 9), DEPARTURE, n, nullptr);
    }
  }

  void arrive(int n, Packet *p) {
    if (p->target == n) {
      if (!p->arrived) {
        p->arrived = true;
        delivered++;
        Time took = now - p->born;
        total_time += took;
        total_hops += p->hops;
        int bin = (int)(took / 50);
        histogram[bin < 8 ? bin : 7]++;
      }
      return;
    }
    if (nodes[n].accept(p)) try_to_send(n);
  }

  void depart(int n) {
    Packet *p = nodes[n].next();
    nodes[n].stop();
    Link &l = nodes[n].route(p->target);
    l.carried++;
    p->hops++;
    schedule(l.delay, ARRIVAL, l.to, p);
    try_to_send(n);
  }

  void generate(int n) {
    int target;
    do {
      target = random.uniform(0, NODES - 1);
    } while (target == n);
    Packet *p = new Packet(made++, n, target, now);
    schedule(TIMEOUT, CHECK, n, p);
    arrive(n, p);
    if (now < END) schedule(random.uniform(20, 160), GENERATE, n, nullptr);
  }

  void check(Packet *p) {
    if (p->arrived) return;
    if (p->tries == 3) {
      given_up++;
      return;
    }
    p->tries++;
    resent++;
    schedule(TIMEOUT * p->tries, CHECK, p->source, p);
    arrive(p->source, p);
  }

public:
  Simulator() : now(0), order(0), made(0), delivered(0), resent(0), given_up(0), total_time(0), total_hops(0) {
    for (int i = 0; i < 8; i++) histogram[i] = 0;
    for (int i = 0; i < NODES; i++) {
      nodes[i].setup(i);
      schedule(random.uniform(0, 40), GENERATE, i, nullptr);
    }
  }

  long run() {
    long events = 0;
    while (!agenda.empty()) {
      Event e = agenda.top();
      agenda.pop();
      if (e.at < now) {
        printf("time runs backwards\n");
        exit(2);
      }
      now = e.at;
      events++;
      switch (e.kind) {
      case ARRIVAL:
        arrive(e.node, e.packet);
        break;
      case DEPARTURE:
        depart(e.node);
        break;
      case GENERATE:
        generate(e.node);
        break;
      case CHECK:
        check(e.packet);
        break;
      }
    }
    return events;
  }

  void report(long events) const {
    printf("%ld events until %ld\n", events, now);
    printf("made %d delivered %d resent %d given up %d\n", made, delivered, resent, given_up);
    if (delivered > 0) printf("mean time %ld, mean hops %ld.%02ld\n", total_time / delivered, total_hops / delivered, total_hops * 100 / delivered % 100);
    for (int i = 0; i < 8; i++) printf("%s%4d: %ld\n", i < 7 ? " " : ">", i * 50, histogram[i]);
    for (const Node &n : nodes) printf("node %2d (%d links): forwarded %ld lost %ld most %zu carried %ld\n", n.id(), n.degree(), n.forwarded, n.lost, n.most, n.carried());
  }
};

int main() {
  Simulator s;
  long events = s.run();
  s.report(events);
  return 0;
}
