// Runners hand batons on. `relay.schedule` tells an order of the calls that a run can have had, `relay.trace` one that `trace`
// recorded, and `relay.strays` one that none can: put behind this text, `verify` says so.
class Runner {
public:
  long legs;
  long carried;
  Runner *next;
  void meet(Runner *n) {
    next = n;
  }
  void run(long baton, long left) {
    legs += 1;
    carried += baton;
    if (left > 0) next->run(baton, left - 1);
  }
};
class Team {
public:
  Runner *at[3];
  void make() {
    for (long i = 0; i < 3; i++) at[i] = new Runner();
    for (long i = 0; i < 3; i++) at[i]->meet(at[(i + 1) % 3]);
  }
  void start(long left) {
    for (long i = 0; i < 3; i++) at[i]->run(10 * i + 10, left);
  }
};
int main() {
  Team *t = new Team();
  t->make();
  t->start(1);
  for (long i = 0; i < 2; i++) t->at[i]->run(i, i);
  return 0;
}
