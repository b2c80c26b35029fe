// C style: typedef struct, malloc, tags, tables, K&R loops, lists in braces.
#include <stdio.h>
#include <stdlib.h>
#include <limits.h>
#include <initializer_list>
typedef struct {
  int x, y;
} Point;
typedef struct Node Node;
struct Node {
  int value;
  struct Node *next;
};
typedef struct Stack {
  int items[10];
  int top;
} Stack;
static const int DX[4] = {0, 1, 0, -1};
static const int DY[4] = {1, 0, -1, 0};
const char *const NAMES[] = {"up", "right", "down", "left"};
static int grid[5][6];
union Nothing;
static void push(Stack *s, int v) { s->items[s->top++] = v; }
static int pop(Stack *s) { return s->items[--s->top]; }
static Node *cons(int v, Node *rest) {
  Node *n = (Node *)malloc(sizeof(Node));
  n->value = v;
  n->next = rest;
  return n;
}
static Node *reversed(Node *n) {
  Node *r = NULL;
  while (n) {
    Node *next = n->next;
    n->next = r;
    r = n;
    n = next;
  }
  return r;
}
static int fill(int y, int x) {
  int d, n = 1;
  if (y < 0 || y >= 5 || x < 0 || x >= 6 || grid[y][x]) return 0;
  grid[y][x] = 1;
  for (d = 0; d < 4; d++) n += fill(y + DY[d], x + DX[d]);
  return n;
}
int main(void) {
  Point p = {3, 4}, q;
  Stack s;
  Node *list = 0;
  int i, *a = (int *)malloc(5 * sizeof(int)), *zero = (int *)calloc(4, sizeof(int));
  q = p;
  q.x += 10;
  s.top = 0;
  for (i = 0; i < 5; i++) {
    push(&s, i * i);
    list = cons(i, list);
    a[i] = i + 1;
  }
  list = reversed(list);
  for (Node *n = list; n != NULL; n = n->next) printf("%d ", n->value);
  while (s.top) printf("%d ", pop(&s));
  grid[2][2] = grid[1][3] = 2;
  printf("%d %d %d %d %d\n", p.x, q.x, a[4] + zero[2], fill(0, 0), INT_MAX);
  for (i = 0; i < 4; i++) printf("%s%c", NAMES[i], i < 3 ? ',' : '\n');
  for (int k : {4, 5, 6}) printf("%d ", k);
  for (const char *w : {"a", "b"}) printf("%s ", w);
  printf("%zu %zu\n", sizeof(grid) / sizeof(grid[0]), sizeof DX / sizeof *DX);
  free(a);
  return 0;
}
