#include <cstdio>
#include <iostream>
#include <string>
struct Named {
  const char *name;
  int n;
  Named(const char *letters, int k) : name(letters), n(k) {}
};
int main() {
  std::string s = "a";
  s += "b";
  Named one{s.c_str(), 3};
  one.name = s.c_str();
  Named *other = new Named("b", 2);
  const char *first = "x";
  std::cout << s << one.name << other->n << std::to_string(1.5) << first << "\n";
}
// refused: 12:13: letters of an array or a std::string where a literal string is wanted; let the parameter be an array, or const std::string &
// refused: 13:14: letters of an array or a std::string where a literal string is wanted; let the parameter be an array, or const std::string &
// refused: 16:60: a number with a fraction; write whole numbers, scaled (fixed point)
