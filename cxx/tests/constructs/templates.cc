// Templates after instantiation: functions, classes, members, numbers as arguments.
#include <cstdio>
template <class T> T twice(T x) { return x + x; }
template <class T> const T &larger(const T &a, const T &b) { return a < b ? b : a; }
template <class T, int N> class Stack {
  T item[N];
  int n = 0;

public:
  void push(const T &x) { item[n++] = x; }
  T pop() { return item[--n]; }
  bool empty() const { return n == 0; }
  template <class F> F sum(F start) const {
    for (int i = 0; i < n; i++) start += item[i];
    return start;
  }
};
template <class K> struct List {
  struct Link {
    K value;
    Link *next;
  };
  Link *head = nullptr;
  void add(K v) { head = new Link{v, head}; }
  int count() const {
    int c = 0;
    for (Link *l = head; l; l = l->next) c++;
    return c;
  }
};
struct P {
  int a, b;
};
int main() {
  Stack<int, 10> s;
  for (int i = 0; i < 5; i++) s.push(i * i);
  long sum = s.sum(100L);
  Stack<long, 4> l;
  l.push(1L << 40);
  int h = 0;
  while (!s.empty()) h = h * 7 + s.pop();
  List<int> list;
  list.add(3);
  list.add(4);
  List<P *> points;
  points.add(new P{1, 2});
  printf("%d %ld %ld %d %d %d\n", h, sum, l.pop(), twice(21), larger(3, 9), list.count() + points.count());
  printf("%ld %d\n", twice(1L << 33), points.head->value->b);
}
