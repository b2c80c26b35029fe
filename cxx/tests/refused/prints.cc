#include <cstdio>
#include <iostream>
struct Node {
  int v;
};
int main() {
  printf("%*d\n", 5, 3);
  printf("%d %d\n", 3);
  printf("%s\n", 3);
  printf("%d\n", "three");
  const char *format = "%d\n";
  printf(format, 3);
  printf("%p\n", (void *)new Node);
  std::cout << new Node << "\n";
  printf("%n", nullptr);
}
// refused: 7:3: the format "%*d\n"; write the value by printf's %d, %u, %x, %c or %s
// refused: 8:3: a format with too few values; write a value for each %
// refused: 9:18: a value that its format doesn't fit; write the value by printf's %d, %u, %x, %c or %s
// refused: 10:18: a value that its format doesn't fit; write the value by printf's %d, %u, %x, %c or %s
// refused: 12:3: a format that is no literal string; write the format where it is used
// refused: 13:3: an address that is printed; print a number that the object has: an address differs from run to run
// refused: 14:16: an address that is printed; print a number that the object has: an address differs from run to run
// refused: 15:3: the format "%n"; write the value by printf's %d, %u, %x, %c or %s
