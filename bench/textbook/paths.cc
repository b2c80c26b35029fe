// All shortest paths among 130 towns by the method of Floyd and Warshall: for each town in between every row shortens itself.
class Middle {
public:
  long to[130];
  void take(long j, long v) { to[j] = v; }
};
class Row {
public:
  long to[130];
  long number;
  void put(long n) {
    number = n;
    for (long i = 0; i < 130; i++) to[i] = (n * 7919 + i * 104729) % 9973 + 1;
    to[n] = 0;
  }
  void offer(long j, long v) { to[j] = min(to[j], v); }
  void shorten(Middle *m, long mine) {
    for (long j = 0; j < 130; j++) offer(j, mine + m->to[j]);
  }
};
class Map {
public:
  Row *row[130];
  long mine[130];
  Middle *middle;
  void make() {
    for (long i = 0; i < 130; i++) {
      row[i] = new Row();
      row[i]->put(i);
    }
  }
  void copy(long k) {
    middle = new Middle();
    for (long j = 0; j < 130; j++) middle->take(j, row[k]->to[j]);
    for (long i = 0; i < 130; i++) mine[i] = row[i]->to[k];
  }
  void round() {
    for (long i = 0; i < 130; i++) row[i]->shorten(middle, mine[i]);
  }
  long sum() {
    long s = 0;
    for (long i = 0; i < 130; i++) s += row[i]->to[(i * 31 + 7) % 130];
    return s;
  }
};
int main() {
  Map *map = new Map();
  map->make();
  for (long k = 0; k < 130; k++) {
    map->copy(k);
    map->round();
  }
  print(map->sum());
}
