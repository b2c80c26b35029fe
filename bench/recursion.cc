// Deep recursion of value methods.
class Sums {
public:
  long down(long n) {
    if (n == 0) return 0;
    return n + down(n - 1);
  }
  long pairs(long n) {
    if (n < 2) return n;
    return pairs(n - 1) + pairs(n - 2);
  }
};
int main() {
  Sums *s = new Sums();
  long total = 0;
  for (long i = 0; i < 20; i++) total = total + s->down(100000);
  print(total);
  print(s->pairs(25));
}
