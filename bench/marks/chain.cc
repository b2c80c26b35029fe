// A chain of 100,000 objects, each of which calls the next.
class Link {
public:
  Link *next;
  long n;
  void set(Link *x) { next = x; }
  void walk(long d) {
    n = n + d;
    if (next != nullptr) next->walk(d + 1);
  }
};
int main() {
  Link *head = nullptr;
  for (long i = 0; i < 100000; i++) {
    Link *k = new Link();
    k->set(head);
    head = k;
  }
  head->walk(1); // marked
  print(head->n);
}
