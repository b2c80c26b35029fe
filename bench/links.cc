// A linked structure of 100,000 objects is built and walked.
class Link {
public:
  Link *next;
  long n;
  void set(Link *x, long v) {
    next = x;
    n = v;
  }
};
int main() {
  Link *head = nullptr;
  for (long i = 0; i < 100000; i++) {
    Link *k = new Link();
    k->set(head, i % 10);
    head = k;
  }
  long total = 0;
  for (long r = 0; r < 60; r++) {
    Link *at = head;
    while (at != nullptr) {
      total = total + at->n;
      at = at->next;
    }
  }
  print(total);
}
