// Operations with much to do on their own object: 1,000 objects, 200 calls on each.
class Cell {
public:
  long k;
  long a;
  long b;
  long c;
  long d;
  void set(long v) { k = v; }
  void work(long p) {
    a = a + p * k + p * p + 3 * k * p + 7;
    b = b + a0(p) * k + p * 5 - k * 11 + p * p * k;
    c = c - p * k * 3 - k * k * p + p * 13 + 17 * k;
    d = d + p * p * p - k * k * k + p * 19 - k * 23;
    a = a + k * p * 29 - p * 31 + k * 37 + p * k * k;
    b = b - k * p * 41 - p * 43 + k * 47 - p * p * 3;
    c = c + p * k * 53 + k * 59 - p * 61 + k * p * p;
    d = d - k * 67 + p * 71 - k * p * 73 + p * k * 2;
    a = a + p * k + p * p + 3 * k * p + 79;
    b = b + p * k + p * 83 - k * 89 + p * p * k;
    c = c - p * k * 97 - k * k * p + p * 13 + 101 * k;
    d = d + p * p * p - k * k * k + p * 103 - k * 107;
  }
  long a0(long p) { return k * 2 + p; }
  long sum() { return a + b + c + d; }
};
class Cells {
public:
  Cell *at[1000];
  void fill() {
    for (long i = 0; i < 1000; i++) at[i] = new Cell();
    for (long i = 0; i < 1000; i++) at[i]->set(i % 17);
  }
  void all(long p) {
    for (long i = 0; i < 1000; i++) at[i]->work(p);
  }
  void rounds(long n) {
    for (long r = 0; r < n; r++) all(r);
  }
  long sum() {
    long s = 0;
    for (long i = 0; i < 1000; i++) s = s + at[i]->sum();
    return s;
  }
};
int main() {
  Cells *c = new Cells();
  c->fill();
  c->rounds(200); // marked
  print(c->sum());
}
