// switch: fall through, default in the middle, break within an if, continue, return.
#include <cstdio>
enum class Op { Add, Sub, Mul, Nop };
static int apply(Op op, int a, int b) {
  switch (op) {
  case Op::Add:
    return a + b;
  case Op::Sub: {
    int r = a - b;
    return r;
  }
  case Op::Mul:
    a *= b;
    break;
  default:
    break;
  }
  return a;
}
static int fall(int n) {
  int r = 0;
  switch (n) {
  case 0:
    r++;
  case 1:
    r += 2;
    if (n == 0) break;
    r += 100;
    break;
  default:
    r ^= 1;
  case 3:
  case 4:
    r -= 5;
  }
  return r;
}
int main() {
  printf("%d %d %d %d\n", apply(Op::Add, 3, 4), apply(Op::Sub, 3, 4), apply(Op::Mul, 3, 4), apply(Op::Nop, 3, 4));
  for (int i = 0; i < 6; i++) printf("%d ", fall(i));
  int s = 0;
  for (int i = 0; i < 10; i++) {
    switch (i % 4) {
    case 0:
      continue;
    case 1:
      if (i > 4) break;
      s += 10;
      break;
    case 2:
      if (i == 6) continue;
    }
    s++;
  }
  printf("%d\n", s);
}
