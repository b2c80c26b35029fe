// std::string of literals: members, parameters, results, comparisons, prints. dynamic_cast.
#include <cstdio>
#include <iostream>
#include <string>
#include <vector>
struct Animal {
  std::string name;
  int legs = 4;
  explicit Animal(const std::string &n) : name(n) {}
  virtual ~Animal() {}
  virtual std::string sound() const { return "nothing"; }
};
struct Dog : Animal {
  int tricks = 2;
  Dog(const char *n) : Animal(n) {}
  std::string sound() const override { return "wuff"; }
};
struct Puppy : Dog {
  Puppy() : Dog("puppy") { tricks = 0; }
};
struct Bird : Animal {
  Bird() : Animal("bird") { legs = 2; }
};
static std::string size_of(int n) {
  if (n > 3) return "large";
  return n > 1 ? "small" : "";
}
int main() {
  std::vector<Animal *> all = {new Dog("rex"), new Bird, new Puppy, new Animal("worm")};
  std::string last = "zebra", empty;
  for (const Animal *a : all) {
    std::cout << a->name << " says " << a->sound() << " on " << a->legs << '\n';
    if (a->name < last) last = a->name;
    if (a->name == "bird") printf("%s!\n", a->name.c_str());
  }
  int tricks = 0, dogs = 0;
  for (Animal *a : all)
    if (Dog *d = dynamic_cast<Dog *>(a)) {
      dogs++;
      tricks += d->tricks;
    }
  for (int i = 0; i < 6; i++) std::cout << '[' << size_of(i) << ']';
  std::cout << last << ' ' << empty.empty() << (last != empty) << ' ' << dogs << tricks << std::endl;
}
