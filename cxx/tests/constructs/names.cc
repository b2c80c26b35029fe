// Names of the program that are words of the language, or that the port has itself.
#include <cstdio>
#include <vector>
struct Box_long {
  long value = 3;
};
struct Array_long {
  long at[3] = {1, 2, 3};
};
struct Vector_long {
  std::vector<long> at;
  long n = 4;
};
struct Program {
  int kind_ = 2, root_ = 5, env_ = 6;
  void run() { kind_++; }
  long print(long object) { return object + root_; }
};
static void twice(long &a, long &b) {
  a *= 2;
  b += a;
}
static long sum(const long *it, int n) {
  long total = 0;
  for (int i = 0; i < n; i++) total += it[i];
  return total;
}
static std::vector<long> upto(int n) {
  std::vector<long> made;
  for (int i = 0; i < n; i++) made.push_back(i);
  return made;
}
long max_ = 7, t_ = 1, object = 2, null = 9, array = 3, print = 4, length = 6;
int main() {
  Box_long box;
  Array_long items;
  Vector_long vector;
  Program program;
  long a = 3, b = 4;
  twice(a, b);
  program.run();
  vector.at.push_back(box.value);
  std::vector<long> made = upto(5);
  printf("%ld %ld %ld %ld\n", a, b, sum(items.at, 3), sum(made.data(), 4));
  printf("%d %ld %zu %ld\n", program.kind_, program.print(7), vector.at.size(), vector.n);
  printf("%ld\n", max_ + t_ + object + null + array + print + length + program.env_);
}
