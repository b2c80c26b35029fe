// References: to objects, to numbers that are changed, to pointers, to items.
#include <cstdio>
struct Point {
  long x = 0, y = 0;
  Point *next = nullptr;
};
static void add(long &sum, long v) { sum += v; }
static void both(int &a, int &b) {
  a += b;
  b = a - b;
}
static void move(Point &p, const Point &by) {
  p.x += by.x;
  p.y += by.y;
}
static void push(Point *&head, Point *p) {
  p->next = head;
  head = p;
}
static void count(const Point *p, int depth, int &most, long &sum) {
  if (!p) return;
  if (depth > most) most = depth;
  add(sum, p->x);
  count(p->next, depth + 1, most, sum);
}
static void exchange(int &a, int &b) {
  int t = a;
  a = b;
  b = t;
}
long total;
int main() {
  long sum = 5;
  add(sum, 7);
  add(total, sum);
  int a = 3, b = 4;
  both(a, b);
  int &r = a;
  r++;
  Point p, q;
  p.x = 3;
  q.y = 4;
  move(p, q);
  add(p.x, 10);
  Point &s = p;
  s.y *= 2;
  Point *head = nullptr;
  push(head, new Point);
  push(head, &p);
  int most = 0;
  long all = 0;
  count(head, 1, most, all);
  int v[4] = {4, 3, 2, 1};
  exchange(v[0], v[3]);
  exchange(v[1], v[1]);
  int &item = v[2];
  item = 9;
  printf("%ld %ld %d %d %ld %ld %d %ld\n", sum, total, a, b, p.x, p.y, most, all);
  printf("%d %d %d %d\n", v[0], v[1], v[2], v[3]);
}
