#include <cstdio>
#include <mutex>
#include <regex>
#include <thread>
#include <charconv>
#include "shape.h"
int main() {
  std::thread t([] { printf("x\n"); });
  t.join();
}
// refused: 2:10: <mutex> (threads); write the program serially: told says which of its loops may run in parallel
// refused: 3:10: <regex> (a function on letters); write a loop over the letters
// refused: 4:10: <thread> (threads); write the program serially: told says which of its loops may run in parallel
// refused: 5:10: <charconv>, a header that isn't known; write a loop or a function of your own
// refused: 6:10: shape.h isn't found; name its folder by -I
