#include <cstdio>
#include <string>
#include <vector>
union Word {
  int whole;
  short half;
};
struct Point {
  double x = 0;
  unsigned flag : 3;
};
static int twice(int x) { return 2 * x; }
static int deep(int n) {
  if (n == 0) goto out;
  return deep(n - 1);
out:
  return 1;
}
int main(int argc, char **argv) {
  Point p;
  p.x = 1;
  int (*f)(int) = twice;
  std::string s = "a";
  s += "b";
  int k = 3;
  int *q = &k;
  *q = 4;
  printf("%d %d\n", deep(3), argc);
}
// refused: 4:7: the union Word; write a struct with a member for each
// refused: 9:10: the type double; write whole numbers, scaled (fixed point)
// refused: 10:12: a bit-field; write a plain member
// refused: 14:15: goto; write a loop or a function
// refused: 16:1: a label; write a loop or a function
// refused: 22:3: the type int (*)(int); call functions by their names, or pass a lambda to a template
// refused: 26:12: the address of a number or pointer; write a reference, or an object that has it
