#include <cstdio>
#include <iostream>
#include <string>
int main() {
  int n;
  std::cin >> n;
  scanf("%d", &n);
  while (getchar() != EOF) n++;
  std::string line;
  std::getline(std::cin, line);
  n += strtol(line.c_str(), nullptr, 10);
}
// refused: 6:8: std::cin (input); write constants: a run has no input
// refused: 7:3: scanf (input); write constants: a run has no input
// refused: 8:10: getchar (input); write constants: a run has no input
// refused: 8:23: EOF (input); write constants: a run has no input
// refused: 10:8: std::getline (input); write constants: a run has no input
// refused: 10:21: std::cin (input); write constants: a run has no input
// refused: 11:8: strtol (input); write constants: a run has no input
