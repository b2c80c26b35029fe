// The product of two matrices of 160 by 160 numbers: each row of the product is an object that works itself out.
class Row {
public:
  long at[160];
  void fill(long n) {
    for (long i = 0; i < 160; i++) at[i] = (n * 31 + i * 17) % 101 - 50;
  }
};
class Matrix {
public:
  Row *row[160];
  void make(long n) {
    for (long i = 0; i < 160; i++) {
      row[i] = new Row();
      row[i]->fill(i + n);
    }
  }
  long cell(long i, Matrix *by, long k) {
    long s = 0;
    for (long j = 0; j < 160; j++) s += row[i]->at[j] * by->row[j]->at[k];
    return s;
  }
};
class Answer {
public:
  long at[160];
  long number;
  Matrix *a, *b;
  void put(long n, Matrix *l, Matrix *r) {
    number = n;
    a = l;
    b = r;
  }
  void add(long k, long v) { at[k] += v; }
  void work() {
    for (long k = 0; k < 160; k++) add(k, a->cell(number, b, k));
  }
  long sum() {
    long s = 0;
    for (long k = 0; k < 160; k++) s += at[k] * (k + 1);
    return s;
  }
};
class Product {
public:
  Answer *row[160];
  void make(Matrix *a, Matrix *b) {
    for (long i = 0; i < 160; i++) {
      row[i] = new Answer();
      row[i]->put(i, a, b);
    }
  }
  void work() {
    for (long i = 0; i < 160; i++) row[i]->work();
  }
  long sum() {
    long s = 0;
    for (long i = 0; i < 160; i++) s += row[i]->sum() * (i + 1);
    return s;
  }
};
int main() {
  Matrix *a = new Matrix();
  a->make(0);
  Matrix *b = new Matrix();
  b->make(7);
  Product *p = new Product();
  p->make(a, b);
  p->work();
  print(p->sum());
}
