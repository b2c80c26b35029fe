#include <cstdio>
static int half(int x) {
  if (x % 2) throw 5;
  return x / 2;
}
static int left = 3;
static int next() { return left--; }
int main() {
  int i = 0;
again:
  if (++i < 5) goto again;
  try {
    printf("%d\n", half(3));
    goto again;
  } catch (int e) {
    printf("caught %d\n", e);
  }
  switch (i % 2) {
  case 0:
    do {
      i++;
    case 1:
      i++;
    } while (i < 9);
  }
  switch (i) {
  case 1 ... 4: i++;
  }
  switch (i) {
    int x;
  case 1: x = 2; i += x;
  }
  for (; int x = next();) i += x;
}
// refused: 10:1: a label; write a loop or a function
// refused: 11:16: goto; write a loop or a function
// refused: 12:3: an exception; return a value that tells of the fault
// refused: 14:5: goto; write a loop or a function
// refused: 22:5: a case within another statement; let each case stand directly in its switch
// refused: 27:3: a range of cases; write each case
// refused: 30:5: a statement before the first case; write it behind a case
// refused: 33:3: a variable that a condition declares; declare it before the loop
