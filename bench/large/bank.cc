// 300,000 transfers between 10,000 accounts, then withdrawals, of which some are refused: their order is kept.
class Random {
public:
  long seed;
  void start(long s) { seed = s; }
  void next() { seed = (seed * 1103515245 + 12345) % 2147483648; }
  long pick(long n) { return seed / 65536 % n; }
};
class Stats {
public:
  long paid, total, richest, refused;
  void pay(long n) { paid += n; }
  void add(long b, long n) {
    total += b;
    richest = max(richest, b);
    refused += n;
  }
};
class Account {
public:
  long balance, in, out, refused;
  void start(long b) { balance = b; }
  void get(long n) {
    balance += n;
    in += n;
  }
  void transfer(Account *b, long n) {
    balance -= n;
    out += n;
    b->get(n);
  }
  void interest() { balance += balance * 3 / 100; }
  void withdraw(long n, Stats *s) {
    bool done = balance >= n;
    if (done) balance -= n;
    else refused++;
    if (done) s->pay(n);
  }
  void report(Stats *s) { s->add(balance, refused); }
};
class Bank {
public:
  Account *account[10000];
  long from[300000];
  long to[300000];
  long amount[300000];
  void make(Random *r) {
    for (long i = 0; i < 10000; i++) {
      r->next();
      account[i] = new Account();
      account[i]->start(r->pick(10000) + 1000);
    }
    for (long i = 0; i < 300000; i++) {
      r->next();
      from[i] = r->pick(10000);
      r->next();
      to[i] = r->pick(10000);
      r->next();
      amount[i] = r->pick(300);
    }
  }
  void run(Stats *s) {
    for (long i = 0; i < 300000; i++) account[from[i]]->transfer(account[to[i]], amount[i]);
    for (long i = 0; i < 10000; i++) account[i]->interest();
    for (long i = 0; i < 300000; i++) account[from[i]]->withdraw(2 * amount[i], s);
    for (long i = 0; i < 10000; i++) account[i]->report(s);
  }
};
int main() {
  Random *r = new Random();
  r->start(17);
  Bank *b = new Bank();
  b->make(r);
  Stats *s = new Stats();
  b->run(s);
  print(s->paid);
  print(s->total);
  print(s->richest);
  print(s->refused);
  return 0;
}
