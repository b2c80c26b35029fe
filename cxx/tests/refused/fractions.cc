#include <cmath>
#include <cstdio>
#include <vector>
struct Body {
  double x, y;
  float mass = 1;
  long id = 0;
  double length() const { return std::sqrt(x * x + y * y); }
};
static float half(int n) { return n / 2.0f; }
static int rounded(double x) { return (int)(x + 0.5); }
int main() {
  Body b;
  b.x = 3;
  b.id = 4;
  float weight = b.mass;
  int h = 7 * 0.5;
  std::vector<double> all;
  printf("%d\n", (int)std::sqrt(16));
  printf("%d\n", rounded(2));
  printf("%d\n", (int)half(3));
  printf("%5.2f\n", 1.0);
}
// refused: 5:10: the type double; write whole numbers, scaled (fixed point)
// refused: 5:13: the type double; write whole numbers, scaled (fixed point)
// refused: 6:9: the type float; write whole numbers, scaled (fixed point)
// refused: 11:27: the type double; write whole numbers, scaled (fixed point)
// refused: 16:3: the type float; write whole numbers, scaled (fixed point)
// refused: 17:11: a number with a fraction; write whole numbers, scaled (fixed point)
// refused: 18:3: the type double; write whole numbers, scaled (fixed point)
// refused: 19:23: a number with a fraction; write whole numbers, scaled (fixed point)
// refused: 20:26: a number with a fraction; write whole numbers, scaled (fixed point)
// refused: 21:23: a number with a fraction; write whole numbers, scaled (fixed point)
// refused: 22:21: a number with a fraction; write whole numbers, scaled (fixed point)
