#include <cstdio>
struct A {
  int a = 1;
};
struct B {
  int b = 2;
};
struct C : A, B {};
struct D : virtual A {};
union Word {
  int whole;
  short half[2];
};
struct Flags {
  unsigned low : 3;
  unsigned high : 5;
};
int main() {
  goto end;
end:
  return 0;
}
// refused: 8:8: C has several bases; give it one base, and the others as members
// refused: 9:8: D has a virtual base; give it one base, and the others as members
// refused: 10:7: the union Word; write a struct with a member for each
// refused: 15:12: a bit-field; write a plain member
// refused: 16:12: a bit-field; write a plain member
// refused: 19:3: goto; write a loop or a function
// refused: 20:1: a label; write a loop or a function
