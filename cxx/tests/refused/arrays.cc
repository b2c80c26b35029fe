#include <cstdio>
#include <vector>
struct Cell {
  int n = 3;
};
int main() {
  Cell *all = new Cell[10];
  Cell one;
  all = &one;
  printf("%d\n", all[4].n);
  int n = 5;
  int a[n];
  std::vector<int> v{1, 2, 3};
  v.insert(v.begin(), 2, 5);
  Cell **rows = new Cell *[3];
  rows[0] = new Cell[2];
  for (auto it = v.rbegin(); it != v.rend(); ++it) n += *it;
  printf("%zu\n", v.capacity());
}
// refused: 9:9: a pointer to an array of new objects that is given something else, too; let one pointer have the array, and another one the object
// refused: 12:3: an array whose length isn't constant; write a vector
// refused: 14:3: vector's insert of this form; write v.insert(v.begin() + i, x)
// refused: 16:13: a new array of objects; write a vector, or an array of pointers
// refused: 17:18: vector's rbegin; write a loop with an index
// refused: 17:36: vector's rend; write a loop with an index
// refused: 18:19: vector's capacity; write a loop with an index
