// Heat on a plate of 150 by 150 places, 25 steps of Jacobi's method: each place takes the mean of its four neighbours.
class Place {
public:
  long now, next;
  Place *up, *down, *left, *right;
  void put(long t) { now = t; }
  void link(Place *u, Place *d, Place *l, Place *r) {
    up = u;
    down = d;
    left = l;
    right = r;
  }
  void work() { if (up != nullptr) next = (up->now + down->now + left->now + right->now) / 4; }
  void settle() { if (up != nullptr) now = next; }
};
class Plate {
public:
  Place *at[22500];
  void make() {
    for (long i = 0; i < 22500; i++) {
      at[i] = new Place();
      at[i]->put(i % 150 * 1000 + i / 150 * i);
    }
    for (long y = 1; y < 149; y++)
      for (long x = 1; x < 149; x++)
        at[y * 150 + x]->link(at[y * 150 + x - 150], at[y * 150 + x + 150], at[y * 150 + x - 1], at[y * 150 + x + 1]);
  }
  void step() {
    for (long i = 0; i < 22500; i++) at[i]->work();
    for (long i = 0; i < 22500; i++) at[i]->settle();
  }
  long sum() {
    long s = 0;
    for (long i = 0; i < 22500; i++) s += at[i]->now;
    return s;
  }
};
int main() {
  Plate *plate = new Plate();
  plate->make();
  for (long t = 0; t < 25; t++) plate->step();
  print(plate->sum());
}
