// Globals, statics of classes and functions, in the order of their definition.
#include <cstdio>
static int next() {
  static int n = 10;
  return n++;
}
int a = next();
static long table[4] = {1, 2, 3};
struct Counter {
  static int made;
  int id;
  Counter() : id(made++) {}
};
int Counter::made = a * 2;
Counter first;
int *none = nullptr;
int scale(int x) {
  static int factor = x + 1;
  return factor * x;
}
int main() {
  Counter second;
  table[3] = table[0] + table[2];
  printf("%d %d %d %d %ld\n", a, first.id, second.id, Counter::made, table[3]);
  int three = scale(3), five = scale(5);
  printf("%d %d %d\n", three, five, next());
  printf("%d\n", none == nullptr);
}
