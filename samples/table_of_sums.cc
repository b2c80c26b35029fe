// Rows file their amounts in a table, at keys that may be the same for many rows.
class Table {
public:
  long count[16];
  long total[16];
  long greatest;
  bool used;
  // Sums at items commute whatever the keys are, and so does putting one and the same literal.
  void add(long key, long amount) {
    count[key] += 1;
    total[key] = total[key] + amount;
    used = true;
  }
  // So is a greatest value: it is the same in both orders.
  void offer(long amount) {
    if (greatest < amount) greatest = amount;
  }
  long mean(long key) {
    if (count[key] == 0) return 0;
    return total[key] / count[key];
  }
};
class Row {
public:
  long key;
  long amount;
  Table *table;
  void set(long k, long a, Table *t) {
    key = k;
    amount = a;
    table = t;
  }
  void file(long price) {
    table->add(key % 16, amount * price);
  }
  void compare(long price) {
    table->offer(amount * price);
  }
};
class Sheet {
public:
  Row *rows[100];
  void make() {
    for (long i = 0; i < 100; i++) rows[i] = new Row();
  }
  void fill(Table *t) {
    for (long i = 0; i < 100; i++) rows[i]->set(7 * i % 23, i, t);
  }
  void file(long price) {
    for (long i = 0; i < 100; i++) rows[i]->file(price);
  }
};
int main() {
  Table *t = new Table();
  Sheet *s = new Sheet();
  s->make();
  s->fill(t);
  s->file(3);
  for (long i = 0; i < 100; i++) s->rows[i]->compare(2);
  for (long i = 0; i < 100; i++) s->rows[i]->file(i);
  for (long k = 0; k < 16; k++) print(t->mean(k));
  print(t->greatest);
  return 0;
}
