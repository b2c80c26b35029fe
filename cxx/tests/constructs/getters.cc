// Getters by reference are values; a constructor of the base by using; a reference that is only read.
#include <cstdio>
#include <vector>
struct Place {
  int x = 3;
};
class Depot {
  Place place;

public:
  const Place &where() const { return place; }
  Place &where() { return place; }
};
class Truck {
protected:
  Depot *depot;
  int way = 0;

public:
  Truck(Depot *d, int w) : depot(d), way(w) {}
  virtual ~Truck() {}
  virtual void step() { way += depot->where().x; }
  int done() const { return way; }
};
class Fast : public Truck {
  int extra = 2;

public:
  using Truck::Truck;
  void step() override { way += 2 * depot->where().x + extra; }
};
template <class T> static int doubled(T &&n) { return n + n; }
int main() {
  Depot d;
  d.where().x++;
  std::vector<Truck *> all;
  for (int i = 0; i < 4; i++) all.push_back(i % 2 ? new Fast(&d, doubled(i)) : new Truck(&d, i));
  for (Truck *t : all) t->step();
  for (const Truck *t : all) printf("%d ", t->done());
  printf("\n");
}
