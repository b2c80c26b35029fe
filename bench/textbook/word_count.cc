// A text of 120,000 words over a vocabulary of 700: each word counts itself and how far apart its places are.
class Word {
public:
  long key, count, places;
  Word *next;
  void put(long k, Word *n) {
    key = k;
    next = n;
  }
  void seen(long place) {
    count += 1;
    places += place % 1000;
  }
};
class Tally {
public:
  long words, most;
  void add(long n) {
    words += n;
    most = max(most, n);
  }
};
class Text {
public:
  long at[120000];
  Word *bucket[128];
  Word *find(long k) {
    Word *w = bucket[k % 128];
    while (w != nullptr) {
      if (w->key == k) return w;
      w = w->next;
    }
    return nullptr;
  }
  void make() {
    long seed = 17;
    for (long i = 0; i < 120000; i++) {
      seed = (seed * 1103515245 + 12345) % 2147483648;
      at[i] = seed / 65536 % 700 * (seed / 65536 % 3 + 1) % 700;
    }
    for (long k = 0; k < 700; k++) {
      Word *w = new Word();
      w->put(k, bucket[k % 128]);
      bucket[k % 128] = w;
    }
  }
  void count(long i) { find(at[i])->seen(i); }
  void count_all() {
    for (long i = 0; i < 120000; i++) count(i);
  }
  void report(long k, Tally *t) { t->add(find(k)->count); }
};
int main() {
  Text *text = new Text();
  text->make();
  text->count_all();
  Tally *tally = new Tally();
  for (long k = 0; k < 700; k++) text->report(k, tally);
  print(tally->words);
  print(tally->most);
}
