#include <cstdio>
struct Cell {
  int get() const;
  static int made;
};
int helper(int);
extern int shared;
int main() {
  Cell c;
  printf("%d\n", helper(3));
  printf("%d\n", c.get());
  printf("%d\n", shared);
  printf("%d\n", Cell::made);
}
// refused: 3:7: Cell::get has no body; name the file that has it
// refused: 10:18: a call of helper, whose body isn't here; write the function, or name the file that has it
// refused: 12:18: shared, which is defined nowhere; name the file that has it
// refused: 13:18: made, which is defined nowhere; name the file that has it
