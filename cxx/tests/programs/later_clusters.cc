// Clusters of points in the plane by the means of their members, until nobody moves.
#include <cstdio>
#include <vector>

struct Centre {
  long x, y;
  long sum_x = 0, sum_y = 0, members = 0;
  Centre(long x, long y) : x(x), y(y) {}
  void clear() { sum_x = sum_y = members = 0; }
  void take(long px, long py) {
    sum_x += px;
    sum_y += py;
    ++members;
  }
  void settle() {
    if (members == 0) return;
    x = sum_x / members;
    y = sum_y / members;
  }
};

class Point {
  long x, y;
  Centre *mine = nullptr;

public:
  Point(long x, long y) : x(x), y(y) {}
  long distance(const Centre *c) const {
    long dx = c->x - x, dy = c->y - y;
    return dx * dx + dy * dy;
  }
  bool choose(const std::vector<Centre *> &centres) {
    Centre *best = centres[0];
    for (Centre *c : centres)
      if (distance(c) < distance(best)) best = c;
    bool moved = best != mine;
    mine = best;
    return moved;
  }
  void report() { mine->take(x, y); }
  long error() const { return distance(mine); }
};

class Clusters {
  std::vector<Point *> points;
  std::vector<Centre *> centres;
  unsigned state = 7;
  int draw(int n) {
    state = state * 1664525u + 1013904223u;
    return (state >> 10) % n;
  }

public:
  Clusters(int count, int k) {
    for (int i = 0; i < count; i++) {
      int near = draw(4);
      points.push_back(new Point(near * 300 + draw(200), near * 170 + draw(150)));
    }
    for (int i = 0; i < k; i++) centres.push_back(new Centre(draw(1200), draw(800)));
  }
  int round() {
    int moved = 0;
    for (Point *p : points)
      if (p->choose(centres)) moved++;
    for (Centre *c : centres) c->clear();
    for (Point *p : points) p->report();
    for (Centre *c : centres) c->settle();
    return moved;
  }
  long error() const {
    long total = 0;
    for (const Point *p : points) total += p->error();
    return total;
  }
  void print() const {
    for (const Centre *c : centres) printf("%ld %ld: %ld\n", c->x, c->y, c->members);
    printf("error %ld\n", error());
  }
};

int main() {
  Clusters clusters(300, 4);
  int rounds = 0;
  while (clusters.round() > 0 && rounds < 30) rounds++;
  printf("%d rounds\n", rounds);
  clusters.print();
}
