// The product of two matrices of 300 by 300 numbers, row by row: a row puts its own items.
class Row {
public:
  long at[300];
  long number;
  void start(long n) { number = n; for (long i = 0; i < 300; i++) at[i] = (n * 31 + i * 17) % 101 - 50; }
};
class Matrix {
public:
  Row *row[300];
  void make() { for (long i = 0; i < 300; i++) { row[i] = new Row(); row[i]->start(i); } }
  long cell(long i, Matrix *by, long k) { long s = 0; for (long j = 0; j < 300; j++) s += row[i]->at[j] * by->row[j]->at[k]; return s; }
};
class Result {
public:
  long at[300];
  Matrix *left, *right;
  long number;
  void start(long n, Matrix *l, Matrix *r) { number = n; left = l; right = r; }
  void compute() { for (long k = 0; k < 300; k++) at[k] = left->cell(number, right, k); }
  long sum() { long s = 0; for (long k = 0; k < 300; k++) s += at[k] * (k + 1); return s; }
};
class Product {
public:
  Result *row[300];
  void make(Matrix *l, Matrix *r) { for (long i = 0; i < 300; i++) { row[i] = new Result(); row[i]->start(i, l, r); } }
  void compute() { for (long i = 0; i < 300; i++) row[i]->compute(); }
  long sum() { long s = 0; for (long i = 0; i < 300; i++) s += row[i]->sum() * (i + 1); return s; }
};
int main() {
  Matrix *a = new Matrix();
  a->make();
  Matrix *b = new Matrix();
  b->make();
  Product *p = new Product();
  p->make(a, b);
  p->compute();
  print(p->sum());
}
