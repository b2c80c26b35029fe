// new as a value: in arguments, in lists, in conditions.
#include <cstdio>
struct Node {
  int value;
  Node *next;
  Node(int v, Node *n) : value(v), next(n) {}
};
static int length(const Node *n) { return n ? 1 + length(n->next) : 0; }
int main() {
  Node *list = new Node(1, new Node(2, new Node(3, nullptr)));
  for (int i = 4; i < 7; i++) list = new Node(i, list);
  printf("%d %d\n", length(list), length(new Node(9, list)));
  Node *chosen = length(list) > 3 ? new Node(10, nullptr) : nullptr;
  printf("%d\n", chosen->value);
}
