// Literal strings that are forwarded to a constructor, and taken by references to arrays.
#include <cstdio>
#include <memory>
#include <string>
struct Named {
  std::string name;
  Named(std::string n) : name(n) {}
};
template <class T> static int first(T &&s) { return s[0] == 'a' ? 1 : 2; }
int main() {
  auto d = std::make_unique<Named>("abc");
  printf("%s %d %d\n", d->name.c_str(), first("abc"), first("xyz"));
}
