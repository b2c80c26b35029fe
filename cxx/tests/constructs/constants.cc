// const, constexpr, enumerations and macros by clang's values.
#include <cstdio>
#define COUNT 4
#define TWICE(x) ((x) * 2)
const int A = 3;
constexpr int B = A * A + 1;
enum Color { RED = 3, GREEN, BLUE = 10 };
enum class Mode { Off, On = 5 };
namespace config {
const long LIMIT = 1L << 20;
}
struct Table {
  static const int SIZE = 6;
  static constexpr int HALF = SIZE / 2;
  int at[SIZE];
};
int main() {
  Table t;
  for (int i = 0; i < Table::SIZE; i++) t.at[i] = i * B;
  const int local = t.at[1];
  static const int fixed = 12;
  printf("%d %d %d %d\n", A, B, COUNT, TWICE(A + 1));
  printf("%d %d %d %d\n", RED, GREEN, BLUE, (int)Mode::On);
  printf("%ld %d %d %d\n", config::LIMIT, Table::HALF, local, fixed);
  Color c = GREEN;
  Mode m = Mode::Off;
  if (c == GREEN) m = Mode::On;
  printf("%d %d\n", c, m == Mode::On);
}
