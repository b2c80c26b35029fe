#include <cstdio>
struct Node {
  int v = 1;
  Node *next = nullptr;
};
struct Span {
  int *first, *last;
};
static void put(int *to, int v) { *to = v; }
int main() {
  int x = 0;
  put(&x, 5);
  int *p = &x;
  *p += 1;
  Node *a = new Node, *b = new Node;
  printf("%d\n", a < b);
  unsigned long number = (unsigned long)a;
  void *any = a;
  Node *back = (Node *)any;
  char *bytes = reinterpret_cast<char *>(a);
  Node **at = &a->next;
  int items[4] = {1, 2, 3, 4};
  Span s{items + 1, items + 3};
  int y = 2;
  int &either = x < y ? x : y;
  printf("%p\n", (void *)a);
}
// refused: 12:7: the address of a number or pointer; write a reference, or an object that has it
// refused: 13:12: the address of a number or pointer; write a reference, or an object that has it
// refused: 16:18: a pointer to an object in an order or with arithmetic; compare numbers that the objects have
// refused: 17:26: an address as a number; give each object a number of its own
// refused: 18:3: a pointer to void; let the pointer have the type of its object
// refused: 19:16: a pointer as one to what it doesn't point to; let the pointer have the type of its object
// refused: 20:17: a pointer as one to what it doesn't point to; let the pointer have the type of its object
// refused: 21:15: the address of a number or pointer; write a reference, or an object that has it
// refused: 23:10: a pointer into an array as a value; pass the array and an index
// refused: 25:17: a choice between two places; write an if with two assignments
// refused: 26:3: an address that is printed; print a number that the object has: an address differs from run to run
