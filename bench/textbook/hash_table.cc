// A hash table with chains: 20,000 keys go in, 200,000 are looked up, and each entry counts how often it was found.
class Entry {
public:
  long key, found;
  Entry *next;
  void put(long k, Entry *n) {
    key = k;
    next = n;
  }
  void hit() { found += 1; }
};
class Tally {
public:
  long hits, most;
  void add(long n) {
    hits += n;
    most = max(most, n);
  }
};
class Table {
public:
  Entry *bucket[16384];
  Entry *entry[20000];
  long seed;
  long next_key(long k) { return (k * 1103515245 + 12345) % 2147483648; }
  void make() {
    seed = 17;
    for (long i = 0; i < 20000; i++) {
      seed = next_key(seed);
      entry[i] = new Entry();
      entry[i]->put(seed / 16 % 40000, bucket[seed / 16 % 40000 % 16384]);
      bucket[seed / 16 % 40000 % 16384] = entry[i];
    }
  }
  Entry *find(long k) {
    Entry *e = bucket[k % 16384];
    while (e != nullptr) {
      if (e->key == k) return e;
      e = e->next;
    }
    return nullptr;
  }
  void look(long k) { if (find(k) != nullptr) find(k)->hit(); }
  void look_all(long n) {
    for (long i = 0; i < n; i++) look(i * 7919 % 40000);
  }
  void report(long i, Tally *t) { t->add(entry[i]->found); }
  void report_all(Tally *t) {
    for (long i = 0; i < 20000; i++) report(i, t);
  }
};
int main() {
  Table *table = new Table();
  table->make();
  table->look_all(200000);
  Tally *tally = new Tally();
  table->report_all(tally);
  print(tally->hits);
  print(tally->most);
}
