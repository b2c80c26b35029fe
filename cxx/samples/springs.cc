// A net of springs: each step, every joint feels its neighbours, and then moves.
#include <cstdio>
#include <vector>

class Joint {
  long at, speed = 0, force = 0;
  std::vector<Joint *> neighbours;

public:
  explicit Joint(long place) : at(place) {}
  void tie(Joint *other) { neighbours.push_back(other); }
  void feel() {
    for (Joint *n : neighbours) force += n->at - at;
  }
  void move() {
    speed += force / 8;
    at += speed;
    force = 0;
  }
  long place() const { return at; }
};

int main() {
  const int N = 50;
  std::vector<Joint *> net;
  for (int i = 0; i < N; i++) net.push_back(new Joint(i * i % 97));
  for (int i = 0; i < N; i++) {
    net[i]->tie(net[(i + 1) % N]);
    net[i]->tie(net[(i * 7 + 3) % N]);
  }
  for (int step = 0; step < 20; step++) {
    for (Joint *j : net) j->feel();
    for (Joint *j : net) j->move();
  }
  long sum = 0;
  for (const Joint *j : net) sum += j->place();
  printf("%d joints, middle %ld\n", N, sum / N);
}
