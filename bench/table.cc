// A hash table in arrays, whose keys that meet go to the next free place: 300,000 words are counted in it, and asked for.
class Table {
public:
  long keys[65536], counts[65536];
  long used, next;
  long place(long key) {
    long at = key * 31 % 65536;
    while (keys[at] != 0 && keys[at] != key) at = (at + 1) % 65536;
    return at;
  }
  void add(long key) {
    long at = place(key);
    if (keys[at] == 0) {
      keys[at] = key;
      used++;
    }
    counts[at] += 1;
  }
  // The next of 65,536 numbers, each of which comes once before the first comes again.
  void draw() { next = (next * 75 + 74) % 65537; }
  void fill(long n) {
    for (long i = 0; i < n; i++) {
      draw();
      add(1 + next % 40000 * 5);
    }
  }
  long total(long n) {
    long sum = 0;
    for (long i = 0; i < n; i++) sum = sum + counts[place(1 + i * 5)];
    return sum;
  }
};
int main() {
  Table *table = new Table();
  table->fill(300000);
  print(table->used);
  print(table->total(40000));
  print(table->total(30000));
}
