// break, continue, early return, do, nested.
#include <cstdio>
static int find(const int *a, int n, int x) {
  for (int i = 0; i < n; i++)
    if (a[i] == x) return i;
  return -1;
}
static int g;
static int weird(int n) {
  int r = 0;
  for (int i = 0; i < n; i++) {
    if (i % 7 == 3) continue;
    for (int j = 0;; j++) {
      g++;
      if (j == i) break;
      if (j == 5 && i == 11) return r * 1000 + j;
      if ((i ^ j) & 1) continue;
      r += i * j;
    }
    do {
      r--;
      if (r % 3 == 0) break;
      if (r % 5 == 1) continue;
      g += 2;
    } while (r % 5);
    while (true) {
      if (++r > 10) break;
    }
  }
  return r;
}
static void early(int n) {
  if (n < 0) return;
  for (int i = 0; i < n; i++) {
    if (i == 3) return;
    g += i;
    if (i == 1) continue;
    g *= 2;
  }
  g += 1000;
}
int main() {
  int a[4] = {5, 6, 7, 8};
  printf("%d %d\n", find(a, 4, 7), find(a, 4, 70));
  int nine = weird(9), thirty = weird(30);
  printf("%d %d %d\n", nine, thirty, g);
  g = 0;
  early(-1);
  early(2);
  early(9);
  printf("%d\n", g);
  int k = 0;
  do
    k += 3;
  while (k < 10);
  while (k--)
    if (k % 4 == 0) break;
  printf("%d\n", k);
}
