// A picture of spheres over a floor, in fixed point: which sphere each ray meets first, its light, and a histogram of the greys.
#include <cstdio>
#include <vector>

typedef long fixed; // 1024 is 1

static long root(long n) {
  long r = 0;
  for (long bit = 1L << 40; bit; bit >>= 1)
    if ((r + bit) * (r + bit) <= n) r += bit;
  return r;
}

struct Point {
  fixed x, y, z;
};

struct Sphere {
  Point at;
  fixed radius;
  int shade;
  long pixels = 0;
  Sphere(fixed x, fixed y, fixed z, fixed r, int s) : at{x, y, z}, radius(r), shade(s) {}
  // How far the sphere is along a ray from the origin, or -1.
  long distance(fixed dx, fixed dy, fixed dz) const {
    long a = dx * dx + dy * dy + dz * dz;
    long b = dx * at.x + dy * at.y + dz * at.z;
    long c = at.x * at.x + at.y * at.y + at.z * at.z - radius * radius;
    long d = b / 1024 * (b / 1024) - a / 1024 * (c / 1024);
    if (d < 0 || b < 0) return -1;
    return (b / 1024 - root(d)) * 1024 / (a / 1024);
  }
};

struct Pixel {
  int column, row;
  fixed depth = 1 << 30;
  int grey = 0;
  Sphere *seen = nullptr;
  Pixel(int c, int r) : column(c), row(r) {}
};

class Picture {
  int width, height;
  std::vector<Sphere *> spheres;
  std::vector<Pixel *> pixels;
  long bins[8] = {};

public:
  Picture(int w, int h) : width(w), height(h) {
    for (int r = 0; r < h; r++)
      for (int c = 0; c < w; c++) pixels.push_back(new Pixel(c, r));
    for (int k = 0; k < 12; k++)
      spheres.push_back(new Sphere(k * 613 % 4000 - 2000, k * 389 % 3000 - 1500, 4000 + k * 271 % 3000, 300 + k * 97 % 500, 40 + k * 17));
  }

  void trace() {
    for (Pixel *p : pixels) {
      fixed dx = (p->column - width / 2) * 64, dy = (p->row - height / 2) * 64;
      for (Sphere *s : spheres) {
        long d = s->distance(dx, dy, 1024);
        if (d >= 0 && d < p->depth) {
          p->depth = d;
          p->seen = s;
        }
      }
    }
  }

  void shade() {
    for (Pixel *p : pixels) {
      if (p->seen == nullptr) {
        p->grey = p->row * 255 / height;
      } else {
        p->grey = p->seen->shade + 40 * 1024 / (p->depth / 16 + 1);
        p->seen->pixels++;
      }
      if (p->grey > 255) p->grey = 255;
    }
  }

  void count() {
    for (Pixel *p : pixels) bins[p->grey / 32]++;
  }

  Sphere *largest() const {
    Sphere *best = spheres[0];
    for (Sphere *s : spheres)
      if (s->pixels > best->pixels) best = s;
    return best;
  }

  long brightness() const {
    long sum = 0;
    for (Pixel *p : pixels) sum += p->grey;
    return sum / (width * height);
  }

  void show() const {
    for (int b = 0; b < 8; b++) printf("%ld ", bins[b]);
    printf("\nlargest %ld %d\nbrightness %ld\n", largest()->pixels, largest()->shade, brightness());
  }
};

int main() {
  Picture picture(32, 24);
  picture.trace();
  picture.shade();
  picture.count();
  picture.show();
}
