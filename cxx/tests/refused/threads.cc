#include <cstdio>
#include <mutex>
#include <thread>
static long n;
int main() {
  std::mutex m;
  std::thread t([&] {
    std::lock_guard<std::mutex> guard(m);
    n++;
  });
  t.join();
  printf("%ld\n", n);
}
// refused: 2:10: <mutex> (threads); write the program serially: told says which of its loops may run in parallel
// refused: 3:10: <thread> (threads); write the program serially: told says which of its loops may run in parallel
