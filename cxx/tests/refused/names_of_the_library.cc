#include <algorithm>
#include <cstdio>
#include <iomanip>
#include <iostream>
#include <vector>
using namespace std;
int main() {
  mt19937 twister(42);
  printf("%d\n", uniform_int_distribution<int>(1, 6)(twister));
  std::random_device device;
  vector<int> v{3, 1, 2};
  nth_element(v.begin(), v.begin() + 1, v.end());
  std::rotate(v.begin(), v.begin() + 1, v.end());
  printf("%zu\n", strlen("four"));
  v.flip();
  cout << fixed << std::setprecision(2) << v[0];
  FILE *f = fopen("x", "w");
}
// refused: 8:3: mt19937 isn't declared; include <random>
// refused: 9:18: uniform_int_distribution isn't declared; include <random>
// refused: 10:8: std::random_device (random numbers of the library); draw them by rand, or by std::mt19937 with a first value of yours
// refused: 13:8: std::rotate, which isn't known; write a loop or a function of your own
// refused: 14:19: strlen isn't declared; include <cstring>
// refused: 15:5: flip of std::vector, which isn't known; write a loop or a function of your own
// refused: 16:11: fixed (a number with a fraction); write whole numbers, scaled (fixed point)
// refused: 16:25: std::setprecision (a number with a fraction); write whole numbers, scaled (fixed point)
// refused: 17:13: fopen (a file); print to the standard output
