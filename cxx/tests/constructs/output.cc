// printf, puts, putchar and streams, to the byte.
#include <cstdio>
#include <iomanip>
#include <iostream>
using namespace std;
static const char *names[] = {"zero", "one", "two"};
static const char *name(int i) { return i < 0 ? "minus" : names[i]; }
int main() {
  printf("%5d|%-5d|%05d|%+d|%x|%X|%o|%c|%%|%s\n", 42, 42, 42, 42, 255, 255, 8, 'z', "text");
  printf("%ld %lld %u %lu %zu %hd\n", -1L, 1LL << 40, 4000000000u, 18446744073709551615ul, (size_t)7, (short)-3);
  printf("%8s|%-8s|%.2s|%3c|\n", "ab", "cd", "efgh", 'x');
  puts("a line");
  putchar('q');
  putchar('\n');
  cout << 1 << ' ' << -2L << " text " << 'c' << true << 3u << endl;
  cout << setw(6) << 42 << '|' << left << setw(6) << 42 << '|' << right << setfill('0') << setw(4) << 7 << '\n';
  cout << hex << 255 << dec << ' ' << boolalpha << false << noboolalpha << false << "\n";
  cout << name(2) << ' ' << name(-1) << '\n';
  for (const char *n : names) printf("%s,", n);
  cerr << "not compared\n";
  cout << "tab\t\"quoted\" \\ \x41 \101\n" << flush;
  std::cout << (signed char)65 << (short)-5 << static_cast<unsigned char>(66) << "\n";
}
