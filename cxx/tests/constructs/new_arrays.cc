// new T[n] of objects: members, locals, parameters and results that are such pointers, walks over them, swaps.
#include <cstdio>
#include <cstdlib>
#include <utility>
struct Body {
  long at = 3, speed = 0;
  Body *near = nullptr;
  void move() { at += speed; }
};
class System {
  Body *bodies;
  int n;

public:
  explicit System(int count) : bodies(new Body[count]), n(count) {
    for (int i = 0; i < n; i++) {
      bodies[i].at = i * i;
      bodies[i].near = &bodies[(i + 1) % n];
    }
  }
  ~System() { delete[] bodies; }
  Body *all() { return bodies; }
  Body *first(int k) { return &bodies[k]; }
  void step() {
    for (int i = 0; i < n; i++) {
      Body &b = bodies[i];
      b.speed += b.near->at - b.at;
    }
    for (Body *b = bodies; b != bodies + n; ++b) b->move();
  }
  long sum() const {
    long s = 0;
    for (int i = 0; i < n; i++) s = s * 3 + bodies[i].at;
    return s;
  }
};
template <class T> class Pile {
  T *items;
  int n = 0, room = 2;

public:
  Pile() { items = new T[room]; }
  void push(const T &one) {
    if (n == room) {
      T *wider = new T[2 * room];
      for (int i = 0; i < n; i++) wider[i] = items[i];
      delete[] items;
      items = wider;
      room *= 2;
    }
    items[n++] = one;
  }
  T &top() { return items[n - 1]; }
  int size() const { return n; }
};
struct Point {
  int x, y;
};
static void turn(Point *points, int n) {
  for (int i = 0; i < n; i++) std::swap(points[i].x, points[i].y);
  std::swap(points[0], points[n - 1]);
}
static Point *made(int n) {
  Point *points = (Point *)malloc(n * sizeof(Point));
  for (int i = 0; i < n; i++) {
    points[i].x = i;
    (points + i)->y = 2 * i;
  }
  return points;
}
int main() {
  System s(7);
  for (int i = 0; i < 5; i++) s.step();
  s.first(2)->at += 1000;
  printf("%ld %ld %ld\n", s.sum(), s.all()[2].at, s.all()->speed);
  Pile<Point> pile;
  for (int i = 0; i < 9; i++) pile.push({i, i * i});
  pile.top().x = 70;
  printf("%d %d %d\n", pile.size(), pile.top().x, pile.top().y);
  Point *points = made(5), *end = points + 5;
  turn(points, 5);
  long h = 0;
  for (Point *p = points; p < end; p++) h = h * 7 + p->x * 2 + p->y;
  printf("%ld %d %d\n", h, points->x, (*points).y);
}
