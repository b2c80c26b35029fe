#include <cstdio>
struct Cell {
  int n = 1;
};
int main() {
  asm("nop");
  int x = 3;
  int y = x ?: 4;
  int z = ({
    int w = 3;
    w + 1;
  });
  printf("%zu\n", sizeof(Cell));
  __int128 wide = 5;
  wchar_t letter = L'x';
}
// refused: 6:3: assembly; write C++
// refused: 8:11: ?: without what is between; write x ? x : y
// refused: 9:11: statements in an expression; write a function
// refused: 13:19: sizeof of this; write the number
// refused: 14:3: the type __int128; write char, int or long
// refused: 15:3: the type wchar_t; write char, int or long
