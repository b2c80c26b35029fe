// The game of life on a torus of 100 by 100 places, for 60 generations.
class Life {
public:
  long now[10000], next[10000];
  void begin(long n) {
    for (long i = 0; i < n * n; i++) {
      if (i % 3 == 0 || i % 7 == 2) now[i] = 1;
    }
  }
  long around(long n, long row, long column) {
    long up = (row + n - 1) % n * n;
    long here = row * n;
    long down = (row + 1) % n * n;
    long left = (column + n - 1) % n;
    long right = (column + 1) % n;
    return now[up + left] + now[up + column] + now[up + right] + now[here + left] + now[here + right] +
           now[down + left] + now[down + column] + now[down + right];
  }
  void step(long n) {
    for (long row = 0; row < n; row++) {
      for (long column = 0; column < n; column++) {
        long count = around(n, row, column);
        if (count == 3 || count == 2 && now[row * n + column] == 1) next[row * n + column] = 1;
        else next[row * n + column] = 0;
      }
    }
    for (long i = 0; i < n * n; i++) now[i] = next[i];
  }
  long alive(long n) {
    long sum = 0;
    for (long i = 0; i < n * n; i++) sum = sum + now[i];
    return sum;
  }
};
int main() {
  Life *life = new Life();
  life->begin(100);
  for (long r = 0; r < 60; r++) life->step(100);
  print(life->alive(100));
}
