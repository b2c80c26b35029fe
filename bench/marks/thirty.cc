// 30 operations of 40 updates each, on 30 objects.
class Cell {
public:
  long k;
  long a;
  long b;
  long c;
  long d;
  void set(long v) { k = v; }
  void add(long v) {
    a = a + v * k + 0;
    b = b + v * k + 1;
    c = c + v * k + 2;
    d = d + v * k + 3;
    a = a + v * k + 4;
    b = b + v * k + 5;
    c = c + v * k + 6;
    d = d + v * k + 7;
    a = a + v * k + 8;
    b = b + v * k + 9;
    c = c + v * k + 10;
    d = d + v * k + 11;
    a = a + v * k + 12;
    b = b + v * k + 13;
    c = c + v * k + 14;
    d = d + v * k + 15;
    a = a + v * k + 16;
    b = b + v * k + 17;
    c = c + v * k + 18;
    d = d + v * k + 19;
    a = a + v * k + 20;
    b = b + v * k + 21;
    c = c + v * k + 22;
    d = d + v * k + 23;
    a = a + v * k + 24;
    b = b + v * k + 25;
    c = c + v * k + 26;
    d = d + v * k + 27;
    a = a + v * k + 28;
    b = b + v * k + 29;
    c = c + v * k + 30;
    d = d + v * k + 31;
    a = a + v * k + 32;
    b = b + v * k + 33;
    c = c + v * k + 34;
    d = d + v * k + 35;
    a = a + v * k + 36;
    b = b + v * k + 37;
    c = c + v * k + 38;
    d = d + v * k + 39;
  }
  long sum() { return a + b + c + d; }
};
class Cells {
public:
  Cell *at[30];
  void fill() {
    for (long i = 0; i < 30; i++) at[i] = new Cell();
    for (long i = 0; i < 30; i++) at[i]->set(i);
  }
  long sum() {
    long s = 0;
    for (long i = 0; i < 30; i++) s = s + at[i]->sum();
    return s;
  }
};
int main() {
  Cells *c = new Cells();
  c->fill();
  for (long i = 0; i < 30; i++) c->at[i]->add(i); // marked
  print(c->sum());
}
