// rand, std::mt19937 and its like: the numbers that the library of g++ draws.
#include <algorithm>
#include <cstdio>
#include <cstdlib>
#include <random>
#include <vector>
int main() {
  for (int i = 0; i < 5; i++) printf("%d ", rand());
  srand(42);
  long sum = 0;
  for (int i = 0; i < 500; i++) sum = (sum * 31 + rand() % 1000) % 1000003;
  printf("%ld %d\n", sum, rand());
  std::mt19937 twister(7);
  std::minstd_rand small(12);
  std::uniform_int_distribution<int> die(1, 6);
  std::uniform_int_distribution<long> wide(-1000000, 1000000);
  for (int i = 0; i < 8; i++) {
    int one = die(twister), two = die(small);
    printf("%d%d ", one, two);
  }
  for (int i = 0; i < 700; i++) sum = (sum * 31 + (long)(twister() % 1000)) % 1000003;
  long far = wide(twister), near = wide(small);
  printf("%ld %ld %ld\n", sum, far, near);
  std::vector<int> cards;
  for (int i = 0; i < 12; i++) cards.push_back(i);
  std::shuffle(cards.begin(), cards.end(), twister);
  for (int c : cards) printf("%d ", c);
  cards.push_back(12);
  std::shuffle(cards.begin(), cards.end(), std::mt19937(3));
  for (int c : cards) printf("%d ", c);
  printf("%d\n", RAND_MAX);
}
