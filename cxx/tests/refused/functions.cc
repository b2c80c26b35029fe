// status: 4
#include <cstdio>
static long n;
#define ONE(name) \
  static void f##name() { n = n * 3 + 1; }
#define TEN(name) \
  ONE(name##0) ONE(name##1) ONE(name##2) ONE(name##3) ONE(name##4) ONE(name##5) ONE(name##6) ONE(name##7) ONE(name##8) ONE(name##9)
#define HUNDRED(name) \
  TEN(name##0) TEN(name##1) TEN(name##2) TEN(name##3) TEN(name##4) TEN(name##5) TEN(name##6) TEN(name##7) TEN(name##8) TEN(name##9)
HUNDRED(1)
HUNDRED(2)
HUNDRED(3)
#define CALL(name) f##name();
#define CALLS(name) \
  CALL(name##0) CALL(name##1) CALL(name##2) CALL(name##3) CALL(name##4) CALL(name##5) CALL(name##6) CALL(name##7) CALL(name##8) CALL(name##9)
#define ALL(name) \
  CALLS(name##0) CALLS(name##1) CALLS(name##2) CALLS(name##3) CALLS(name##4) CALLS(name##5) CALLS(name##6) CALLS(name##7) CALLS(name##8) CALLS(name##9)
int main() {
  ALL(1)
  ALL(2)
  ALL(3)
  printf("%ld\n", n);
}
// refused: 12:1: more than 256 functions change something, with those that the port adds: port a part of the program
