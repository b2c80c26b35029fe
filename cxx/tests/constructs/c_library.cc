// Functions on letters and on arrays of C, bitset, optional.
#include <bitset>
#include <cstdio>
#include <cstring>
#include <optional>
#include <string.h>
struct Entry {
  char name[12];
  int marks[3][4];
  Entry *next;
};
static Entry *made(const char *name, Entry *next) {
  Entry *e = new Entry;
  strcpy(e->name, name);
  memset(e->marks, 0, sizeof(e->marks));
  e->next = next;
  return e;
}
static Entry *find(Entry *all, const char *name) {
  for (Entry *e = all; e; e = e->next)
    if (strcmp(e->name, name) == 0) return e;
  return NULL;
}
static std::optional<int> half(int n) {
  if (n % 2) return std::nullopt;
  return n / 2;
}
int main() {
  Entry *all = made("ann", made("bob", made("zoe", NULL)));
  find(all, "bob")->marks[1][2] = 7;
  strcat(find(all, "zoe")->name, "-mae");
  int sum = 0;
  for (Entry *e = all; e; e = e->next) {
    for (auto &row : e->marks)
      for (int m : row) sum += m;
    printf("%s %zu %d\n", e->name, strlen(e->name), strncmp(e->name, "zoe", 3) < 0);
  }
  int a[5], b[5];
  memset(a, -1, sizeof a);
  a[3] = 4;
  memcpy(b, a, sizeof(b));
  std::bitset<40> seen;
  for (int i = 1; i < 40; i *= 3) seen[i] = true;
  seen.set(5);
  seen.flip(1);
  std::optional<int> h = half(10);
  printf("%d %d %d %zu %d %d\n", sum, b[0] + b[3], find(all, "joe") == NULL, seen.count(), seen.test(9), (int)seen[1]);
  char row[40], cell[8];
  int n = snprintf(row, sizeof row, "%d|%4d|%-5s|%04x|%c", -17, sum, all->name, 255u, 'z');
  sprintf(cell, "r%02d", 5);
  n += sprintf(row + n, "+%s+%lu", cell, 18446744073709551615ul);
  printf("%s %d\n", row, n);
  if (h) printf("%d %d %d\n", *h, half(7).has_value(), half(7).value_or(-5));
}
