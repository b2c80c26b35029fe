// 1,000,000 numbers fall into 64 bins, 12 times.
class Random {
public:
  long seed;
  void start(long s) { seed = s; }
  void next() { seed = (seed * 1103515245 + 12345) % 2147483648; }
  long pick(long n) { return seed / 65536 % n; }
};
class Histogram {
public:
  long data[1000000];
  long bin[64];
  long below[64];
  long most, sum;
  void make(Random *r) {
    for (long i = 0; i < 1000000; i++) {
      r->next();
      data[i] = r->pick(30000);
    }
  }
  void add(long d, long pass) { bin[(d * (pass + 1) ^ d / 64) % 64] += 1; }
  void count(long pass) {
    for (long i = 0; i < 1000000; i++) add(data[i], pass);
  }
  void rise(long n) { most = max(most, n); }
  void highest() {
    for (long i = 0; i < 64; i++) rise(bin[i]);
  }
  void cumulate() {
    for (long i = 0; i < 64; i++) {
      sum += bin[i];
      below[i] = sum;
    }
  }
};
int main() {
  Random *r = new Random();
  r->start(17);
  Histogram *h = new Histogram();
  h->make(r);
  for (long pass = 0; pass < 12; pass++) h->count(pass);
  h->highest();
  h->cumulate();
  print(h->most);
  print(h->below[31]);
  print(h->sum);
  return 0;
}
