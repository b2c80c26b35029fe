// The sieve of Eratosthenes: the primes below 200,000 are counted, ten times.
class Sieve {
public:
  bool crossed[200000];
  long count;
  void clear(long n) {
    count = 0;
    for (long i = 0; i < n; i++) crossed[i] = false;
  }
  void cross(long n) {
    for (long i = 2; i < n; i++) {
      if (!crossed[i]) {
        count++;
        for (long j = i * i; j < n; j += i) crossed[j] = true;
      }
    }
  }
};
int main() {
  Sieve *s = new Sieve();
  for (long r = 0; r < 10; r++) {
    s->clear(200000);
    s->cross(200000);
  }
  print(s->count);
}
