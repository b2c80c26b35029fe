// The set of Mandelbrot on 120 rows of 160 points, in whole numbers: a row is an object that counts the points inside.
class Picture {
public:
  long inside, turns;
  void add(long n, long t) {
    inside += n;
    turns += t;
  }
};
class Line {
public:
  long y;
  void put(long n) { y = n; }
  long leaves(long cx, long cy) {
    long x = 0;
    long z = 0;
    long n = 0;
    while (n < 60 && x * x + z * z < 67108864) {
      long t = (x * x - z * z) / 4096 + cx;
      z = 2 * x * z / 4096 + cy;
      x = t;
      n++;
    }
    return n;
  }
  long points() {
    long n = 0;
    for (long i = 0; i < 160; i++) if (leaves(i * 77 - 8192, y * 68 - 4096) == 60) n++;
    return n;
  }
  long turns() {
    long n = 0;
    for (long i = 0; i < 160; i++) n += leaves(i * 77 - 8192, y * 68 - 4096);
    return n;
  }
  void draw(Picture *p) { p->add(points(), turns()); }
};
class Lines {
public:
  Line *at[120];
  void make() {
    for (long i = 0; i < 120; i++) {
      at[i] = new Line();
      at[i]->put(i);
    }
  }
  void draw(Picture *p) {
    for (long i = 0; i < 120; i++) at[i]->draw(p);
  }
};
int main() {
  Lines *lines = new Lines();
  lines->make();
  Picture *picture = new Picture();
  lines->draw(picture);
  print(picture->inside);
  print(picture->turns);
}
