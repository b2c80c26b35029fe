// A triple loop over array fields.
class Matrices {
public:
  long a[40000], b[40000], c[40000];
  void fill(long n) {
    for (long i = 0; i < n * n; i++) {
      a[i] = i % 7;
      b[i] = i % 5;
    }
  }
  void multiply(long n) {
    for (long i = 0; i < n; i++) {
      for (long j = 0; j < n; j++) {
        long s = 0;
        for (long k = 0; k < n; k++) s = s + a[i * n + k] * b[k * n + j];
        c[i * n + j] = s;
      }
    }
  }
  long trace(long n) {
    long s = 0;
    for (long i = 0; i < n; i++) s = s + c[i * n + i];
    return s;
  }
};
int main() {
  Matrices *m = new Matrices();
  m->fill(200);
  m->multiply(200);
  print(m->trace(200));
}
