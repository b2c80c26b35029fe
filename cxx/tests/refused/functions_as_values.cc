#include <algorithm>
#include <cstdio>
struct Cell {
  int n = 1;
  int get() const { return n; }
};
static int twice(int x) { return 2 * x; }
static bool more(int a, int b) { return a > b; }
static int apply(int (*f)(int), int x) { return f(x); }
int main() {
  int (*g)(int) = twice;
  printf("%d\n", apply(twice, 3));
  auto h = &twice;
  int a[3] = {1, 3, 2};
  std::sort(a, a + 3, more);
  int (*l)(int) = [](int x) { return x + 1; };
  int Cell::*member = &Cell::n;
  int (Cell::*method)() const = &Cell::get;
}
// refused: 9:24: the type int (*)(int); call functions by their names, or pass a lambda to a template
// refused: 11:3: the type int (*)(int); call functions by their names, or pass a lambda to a template
// refused: 12:24: the function twice as a value; call it by its name, or write a lambda
// refused: 13:3: the type int (*)(int); call functions by their names, or pass a lambda to a template
// refused: 15:23: the function more as a value; call it by its name, or write a lambda
// refused: 16:3: the type int (*)(int); call functions by their names, or pass a lambda to a template
// refused: 17:3: a pointer to a member; name the member, or write a function
// refused: 18:3: a pointer to a member; name the member, or write a function
