// Clusters of 20,000 points in the plane round nine centres, six rounds: each point finds its nearest centre and adds itself to it.
class Centre {
public:
  long x, y, sx, sy, n;
  void put(long px, long py) {
    x = px;
    y = py;
  }
  void clear() {
    sx = 0;
    sy = 0;
    n = 0;
  }
  void gain(long px, long py) {
    sx += px;
    sy += py;
    n += 1;
  }
  void move() {
    if (n > 0) {
      x = sx / n;
      y = sy / n;
    }
  }
};
class Clusters {
public:
  Centre *centre[9];
  void make() {
    for (long k = 0; k < 9; k++) {
      centre[k] = new Centre();
      centre[k]->put(k % 3 * 3000 + 500, k / 3 * 3000 + 500);
    }
  }
  void clear() {
    for (long k = 0; k < 9; k++) centre[k]->clear();
  }
  void move() {
    for (long k = 0; k < 9; k++) centre[k]->move();
  }
  long nearest(long x, long y) {
    long best = 0;
    long least = 9000000000;
    for (long k = 0; k < 9; k++) {
      long dx = centre[k]->x - x;
      long dy = centre[k]->y - y;
      if (dx * dx + dy * dy < least) {
        least = dx * dx + dy * dy;
        best = k;
      }
    }
    return best;
  }
};
class Point {
public:
  long x, y;
  void put(long px, long py) {
    x = px;
    y = py;
  }
  void assign(Clusters *c) {
    c->centre[c->nearest(x, y)]->gain(x, y);
  }
};
class Points {
public:
  Point *point[20000];
  void make() {
    long seed = 17;
    for (long i = 0; i < 20000; i++) {
      seed = (seed * 1103515245 + 12345) % 2147483648;
      long x = seed / 65536 % 10000;
      seed = (seed * 1103515245 + 12345) % 2147483648;
      point[i] = new Point();
      point[i]->put(x, seed / 65536 % 10000);
    }
  }
  void assign(Clusters *c) {
    for (long i = 0; i < 20000; i++) point[i]->assign(c);
  }
};
int main() {
  Points *points = new Points();
  points->make();
  Clusters *clusters = new Clusters();
  clusters->make();
  for (long r = 0; r < 6; r++) {
    clusters->clear();
    points->assign(clusters);
    clusters->move();
  }
  for (long k = 0; k < 9; k++) print(clusters->centre[k]->x * 10000 + clusters->centre[k]->y);
}
