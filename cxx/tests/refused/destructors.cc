// status: 3
#include <cstdio>
struct Guard {
  ~Guard() { printf("bye\n"); }
};
int main() {
  Guard g;
  printf("hi\n");
}
// refused: not ported: line 2 of the output differs: the program writes 'bye', the port ''
