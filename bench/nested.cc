// Value methods whose arguments are calls of value methods.
class Numbers {
public:
  long square(long n) { return n * n; }
  long far(long a, long b) {
    if (a < b) return b - a;
    return a - b;
  }
  long between(long low, long n, long high) { return max(low, min(n, high)); }
  long blend(long a, long b) { return between(0, far(square(a), square(b)) - square(far(a, b)), 1000); }
  long tak(long x, long y, long z) {
    if (y < x) return tak(tak(x - 1, y, z), tak(y - 1, z, x), tak(z - 1, x, y));
    return z;
  }
};
int main() {
  Numbers *n = new Numbers();
  long sum = 0;
  for (long i = 0; i < 120000; i++) sum = sum + n->blend(n->between(3, i % 50, 40), n->blend(i % 31, i % 17));
  print(sum);
  for (long i = 6; i < 12; i++) print(n->tak(18, 12, i));
}
