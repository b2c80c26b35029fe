// A value method that calls itself twice in one expression.
class Fib {
public:
  long of(long n) {
    if (n < 2) return n;
    return of(n - 1) + of(n - 2);
  }
};
int main() {
  Fib *f = new Fib();
  print(f->of(31));
}
