// Arrays: nested, of structs, of pointers, made by new, handed to functions.
#include <cstdio>
struct Cell {
  int v = 1;
  Cell *near[2];
};
static int grid[3][4] = {{1, 2}, {3, 4, 5}};
static Cell cells[2][3];
static int sum(const int *a, int n) {
  int s = 0;
  for (int i = 0; i < n; i++) s += a[i];
  return s;
}
static void fill(int *a, int n, int v) {
  for (int i = 0; i < n; ++i) a[i] = v + i;
}
static int trace(int m[][3], int n) {
  int s = 0;
  for (int i = 0; i < n; i++) s += m[i][i];
  return s;
}
int main() {
  int cube[2][3][2] = {};
  for (int i = 0; i < 2; i++)
    for (int j = 0; j < 3; j++)
      for (int k = 0; k < 2; k++) cube[i][j][k] = i * 100 + j * 10 + k;
  int s = 0;
  for (auto &plane : cube)
    for (auto &row : plane)
      for (int x : row) s = s * 3 + x;
  for (int y = 0; y < 2; y++)
    for (int x = 0; x < 3; x++) cells[y][x].near[0] = &cells[(y + 1) % 2][x];
  cells[0][1].near[0]->v = 8;
  int total = 0;
  for (auto &row : cells)
    for (Cell &c : row) total = total * 2 + c.v;
  int a[5], m[3][3] = {{1, 2, 3}, {4, 5, 6}, {7, 8, 9}};
  fill(a, 5, 4);
  int *b = new int[6];
  fill(b, 6, 1);
  Cell **list = new Cell *[3];
  for (int i = 0; i < 3; i++) list[i] = new Cell;
  list[1]->v = 4;
  int *zeros = new int[4]();
  printf("%d %d %d %d %d %d\n", s, total, sum(a, 5), sum(b, 6), trace(m, 3), list[1]->v + zeros[2]);
  printf("%d %d\n", grid[1][2], grid[2][3]);
  delete[] b;
}
