// status: 3
#include <cstdio>
int main() {
  int a[4] = {1, 2, 3, 4};
  int s = 0;
  for (int i = 0; i <= 4; i++) s += a[i];
  printf("%d\n", s > 0);
}
// refused: not ported: 6:32: an index is out of range: the run of the port ends here
