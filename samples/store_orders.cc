// A store in phases: orders ask bins for pieces, bins share out what they have, and orders are served and billed.
// What one phase writes the next one only reads.
class Supplier {
public:
  long bought;
  long by_bin[12];
  // Each bin has an item of its own, and which is the greatest is found when all have bought.
  void buy(long bin, long pieces) {
    bought += pieces;
    by_bin[bin] += pieces;
  }
  long greatest() {
    long most = 0;
    for (long i = 0; i < 12; i++) {
      if (by_bin[i] > most) most = by_bin[i];
    }
    return most;
  }
};
class Bin {
public:
  long number;
  long stock;
  long price;
  long asked;
  long part;
  long given;
  Supplier *supplier;
  void start(long n, long s, long p, Supplier *from) {
    number = n;
    stock = s;
    price = p;
    supplier = from;
  }
  // First phase: who comes first doesn't matter, since nobody is served yet.
  void ask(long pieces) {
    asked += pieces;
  }
  // Second phase: asked is a constant now. A value method may divide by it.
  long percent() {
    if (asked <= stock) return 100;
    return 100 * stock / asked;
  }
  void settle() {
    part = percent();
    if (stock < asked) supplier->buy(number, asked - stock);
  }
  // Third phase: given changes, and part, which the lines read, doesn't.
  void give(long pieces) {
    given += pieces;
  }
  // First come, first served has an order: this one stays serial.
  void take(long pieces) {
    if (pieces <= stock - given) given += pieces;
  }
};
class Customer {
public:
  long owed;
  long orders;
  void owe(long amount) {
    owed += amount;
    orders++;
  }
};
class Line {
public:
  long pieces;
  long got;
  Bin *bin;
  Order *order;
  Line *next;
  void start(long p, Bin *b, Order *o, Line *n) {
    pieces = p;
    bin = b;
    order = o;
    next = n;
  }
  // A line calls the next one, in place of a loop along the list.
  void ask() {
    bin->ask(pieces);
    if (next != nullptr) next->ask();
  }
  // What is put into got is made of constants, so it is the same in every order.
  void serve() {
    long n = pieces * bin->part / 100;
    got = n;
    bin->give(n);
    order->fill(n * bin->price, n == pieces);
    if (next != nullptr) next->serve();
  }
};
class Order {
public:
  long amount;
  bool lacking;
  Line *first;
  Customer *customer;
  void start(Customer *c) {
    customer = c;
  }
  void add(long pieces, Bin *bin) {
    Line *line = new Line();
    line->start(pieces, bin, this, first);
    first = line;
  }
  void ask() {
    if (first != nullptr) first->ask();
  }
  void serve() {
    if (first != nullptr) first->serve();
  }
  void fill(long a, bool whole) {
    amount += a;
    if (!whole) lacking = true;
  }
  // Fourth phase: an order that lacks pieces costs less.
  void bill() {
    if (lacking) customer->owe(amount * 9 / 10);
    else customer->owe(amount);
  }
};
class Store {
public:
  Supplier *suppliers[3];
  Bin *bins[12];
  Customer *customers[7];
  Order *orders[40];
  void build() {
    for (long i = 0; i < 3; i++) suppliers[i] = new Supplier();
    for (long i = 0; i < 7; i++) customers[i] = new Customer();
    for (long i = 0; i < 12; i++) {
      bins[i] = new Bin();
      bins[i]->start(i, 30 + 7 * i % 29, 3 + 5 * i % 11, suppliers[i % 3]);
    }
  }
  void take_orders() {
    for (long i = 0; i < 40; i++) {
      orders[i] = new Order();
      orders[i]->start(customers[3 * i % 7]);
      for (long k = 0; k <= i % 4; k++) orders[i]->add(1 + (i + 3 * k) % 9, bins[(5 * i + 7 * k) % 12]);
    }
  }
  void ask() {
    for (long i = 0; i < 40; i++) orders[i]->ask();
  }
  void settle() {
    for (long i = 0; i < 12; i++) bins[i]->settle();
  }
  void serve() {
    for (long i = 0; i < 40; i++) orders[i]->serve();
  }
};
int main() {
  Store *store = new Store();
  store->build();
  store->take_orders();
  store->ask();
  store->settle();
  store->serve();
  for (long i = 0; i < 40; i++) store->orders[i]->bill();
  for (long i = 0; i < 12; i++) store->bins[i]->take(5);
  for (long i = 0; i < 7; i++) print(store->customers[i]->owed);
  for (long i = 0; i < 3; i++) print(store->suppliers[i]->greatest());
  return 0;
}
