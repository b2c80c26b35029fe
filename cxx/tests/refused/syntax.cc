#include <cstdio>
int main() {
  int x = ;
  printf("%d\n", counter);
  Shape s;
}
// refused: 3:11: error: expected expression
// refused: 4:18: error: use of undeclared identifier 'counter'
// refused: 5:3: error: unknown type name 'Shape'
