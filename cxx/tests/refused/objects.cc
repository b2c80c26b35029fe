// status: 4
#include <cstdio>
struct Node {
  Node *next = nullptr;
};
int main() {
  Node *head = nullptr;
  for (int i = 0; i < 1000001; i++) {
    Node *n = new Node;
    n->next = head;
    head = n;
  }
  printf("%d\n", head != nullptr);
}
// refused: 9:15: more than 1,000,000 objects are made, or 4,000,000 values: nothing is freed, so reuse objects: the run of the port ends here
