class Site {
public:
  long pages;
  long total;
  void add(long score) {
    pages += 1;
    total += score;
  }
};
class Page {
public:
  long text;
  bool seen;
  Page *first, *second;
  Site *site;
  void link(long t, Page *f, Page *s, Site *o) {
    text = t;
    first = f;
    second = s;
    site = o;
  }
  long score() {                  // slow, and changes nothing
    long hash = text;
    for (long i = 0; i < 5000; i++) hash = (31 * hash + i) % 1000003;
    return hash;
  }
  void visit() {
    if (!seen) {
      seen = true;                // whoever comes first sets it
      site->add(score());         // sums come to the same in every order
      first->visit();             // nobody changes the links
      second->visit();
    }
  }
};
class Web {
public:
  Page *page[64];
  void make(Site *site) {
    for (long i = 0; i < 64; i++) page[i] = new Page();
    for (long i = 0; i < 64; i++) page[i]->link(i, page[(5 * i + 1) % 64], page[(3 * i + 7) % 64], site);
  }
};
int main() {
  Site *site = new Site();
  Web *web = new Web();
  web->make(site);
  web->page[0]->visit();
  return 0;
}
