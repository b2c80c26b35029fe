// Points tell the boxes round them how far they reach: greatest and least values are the same in every order.
class Box {
public:
  long left;
  long right;
  long bottom;
  long top;
  long farthest;
  long nearest;
  long first;
  Point *last;
  Box *outer;
  void start(Box *o) {
    left = 1000;
    right = -1000;
    bottom = 1000;
    top = -1000;
    nearest = 1000000;
    first = 1000000;
    outer = o;
  }
  // Whatever the order of a bound and of two numbers is, both orders of two calls leave the same bound.
  void take(long x, long y) {
    if (x < left) left = x;
    if (right < x) right = x;
    if (y < bottom) bottom = y;
    if (top < y) top = y;
    if (outer != nullptr) outer->take(x, y);
  }
  // With max and min it may be any number, also one that is computed.
  void measure(long x, long y) {
    farthest = max(farthest, x * x + y * y);
    nearest = min(nearest, x * x + y * y);
    if (outer != nullptr) outer->measure(x, y);
  }
  // Who is the nearest: of two that are equally near whoever comes last would win, so this one stays serial.
  void choose(long d, Point *p) {
    if (d <= nearest) {
      nearest = d;
      last = p;
    }
  }
  // The same in every order, once nearest is a constant: the least number of those that are as near.
  void name(long number) {
    first = min(first, number);
  }
};
class Point {
public:
  long number;
  long x;
  long y;
  Box *box;
  void start(long n, long px, long py, Box *b) {
    number = n;
    x = px;
    y = py;
    box = b;
  }
  void tell() {
    box->take(x, y);
    box->measure(x, y);
  }
  void claim() {
    if (x * x + y * y == box->nearest) box->name(number);
  }
};
class Map {
public:
  Box *boxes[3];
  Point *points[8];
  void make() {
    for (long i = 0; i < 3; i++) boxes[i] = new Box();
    for (long i = 0; i < 8; i++) points[i] = new Point();
  }
  void place() {
    boxes[0]->start(nullptr);
    for (long i = 1; i < 3; i++) boxes[i]->start(boxes[0]);
    for (long i = 0; i < 8; i++) points[i]->start(i, 5 * i % 7 - 3, 3 * i % 8 - 4, boxes[1 + i % 2]);
  }
  void tell() {
    for (long i = 0; i < 8; i++) points[i]->tell();
  }
  void claim() {
    for (long i = 0; i < 8; i++) points[i]->claim();
  }
};
int main() {
  Map *m = new Map();
  m->make();
  m->place();
  m->tell();
  m->claim();
  print(m->boxes[0]->farthest);
  print(m->boxes[2]->first);
  return 0;
}
