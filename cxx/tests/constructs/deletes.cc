// delete does nothing that is seen.
#include <cstdio>
struct Node {
  int v;
  Node *next;
};
int main() {
  Node *list = nullptr;
  for (int i = 0; i < 5; i++) list = new Node{i, list};
  int s = 0;
  while (list) {
    Node *n = list;
    s = s * 3 + n->v;
    list = n->next;
    delete n;
  }
  int *a = new int[3];
  a[0] = s;
  printf("%d\n", a[0]);
  delete[] a;
}
