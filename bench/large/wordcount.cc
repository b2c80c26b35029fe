// 300,000 words are counted, and in which of 5,000 documents each is.
class Random {
public:
  long seed;
  void start(long s) { seed = s; }
  void next() { seed = (seed * 1103515245 + 12345) % 2147483648; }
  long pick(long n) { return seed / 65536 % n; }
};
// The vocabulary is built serially; then all documents count, and each word keeps its documents as a set of bits.
class Stats {
public:
  long words, postings, most, widest;
  void add(long count, long docs) {
    words += 1;
    postings += docs;
    most = max(most, count);
    widest = max(widest, docs);
  }
};
class Word {
public:
  long key, count, set;
  Word *next;
  void start(long k, Word *n) {
    key = k;
    next = n;
  }
  long bit(long i) {
    long b = 1;
    for (long k = 0; k < i; k++) b *= 2;
    return b;
  }
  void seen(long doc) {
    count += 1;
    set |= bit(doc);
  }
  long docs() {
    long n = 0;
    long s = set;
    while (s != 0) {
      s = s & (s - 1);
      n++;
    }
    return n;
  }
  void report(Stats *s) {
    s->add(count, docs());
    if (next != nullptr) next->report(s);
  }
};
class Index {
public:
  Word *bucket[8192];
  Word *find(long k) {
    Word *w = bucket[k % 8192];
    while (w != nullptr) {
      if (w->key == k) return w;
      w = w->next;
    }
    return nullptr;
  }
  void put(long k) {
    if (find(k) == nullptr) {
      Word *w = new Word();
      w->start(k, bucket[k % 8192]);
      bucket[k % 8192] = w;
    }
  }
  void report(long b, Stats *s) { if (bucket[b] != nullptr) bucket[b]->report(s); }
  void measure(Stats *s) {
    for (long b = 0; b < 8192; b++) report(b, s);
  }
};
class Text {
public:
  long word[300000];
  Index *index;
  void make(Random *r, Index *x) {
    index = x;
    for (long i = 0; i < 300000; i++) {
      r->next();
      long a = r->pick(300);
      r->next();
      word[i] = a * r->pick(300) / 300;
    }
  }
  void count(long i) { index->find(word[i])->seen(i / 60); }
  void read() {
    for (long i = 0; i < 300000; i++) index->put(word[i]);
    for (long i = 0; i < 300000; i++) count(i);
  }
};
int main() {
  Random *r = new Random();
  r->start(17);
  Text *t = new Text();
  Index *x = new Index();
  t->make(r, x);
  t->read();
  Stats *s = new Stats();
  x->measure(s);
  print(s->words);
  print(s->postings);
  print(s->most);
  print(s->widest);
  return 0;
}
