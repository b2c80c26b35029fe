// Sensors tell stations what they measure: flags of faults, the least and the greatest value, and a parity of all.
class Station {
public:
  Station *above;
  long faults;
  long least;
  long greatest;
  long parity;
  void start(Station *s) {
    above = s;
    least = 1000;
    greatest = -1000;
  }
  // Each of these gives the same in every order, and above is a constant.
  void tell(long value, long fault) {
    faults |= fault;
    least = min(least, value);
    greatest = max(greatest, value);
    parity ^= value;
    if (above != nullptr) above->tell(value, fault);
  }
  // Clearing a flag and setting it don't change places.
  void clear(long fault) {
    faults &= -1 - fault;
  }
  void repair(long fault, long value) {
    clear(fault);
    tell(value, 0);
  }
};
class Sensor {
public:
  Station *at;
  long value;
  void start(Station *s, long v) {
    at = s;
    value = v;
  }
  // A flag for each fault: 1 for too low, 2 for too high, 4 for odd.
  long fault() {
    long f = (value & 1) * 4;
    if (value < -35) f |= 1;
    if (value > 40) f |= 2;
    return f;
  }
  void tell() {
    at->tell(value, fault());
  }
};
class Net {
public:
  Station *stations[3];
  Sensor *sensors[6];
  void make() {
    for (long i = 0; i < 3; i++) stations[i] = new Station();
    for (long i = 0; i < 6; i++) sensors[i] = new Sensor();
  }
  void link() {
    stations[0]->start(nullptr);
    for (long i = 1; i < 3; i++) stations[i]->start(stations[0]);
    for (long i = 0; i < 6; i++) sensors[i]->start(stations[1 + i % 2], 37 * i % 101 - 40);
  }
  void tell() {
    for (long i = 0; i < 6; i++) sensors[i]->tell();
  }
};
int main() {
  Net *n = new Net();
  n->make();
  n->link();
  n->tell();
  print(n->stations[0]->faults & 6);
  print(max(n->stations[1]->greatest, n->stations[2]->greatest));
  n->stations[2]->repair(4, 60);
  return 0;
}
