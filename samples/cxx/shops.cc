// A town with houses and shops: how many people can walk to each shop, and which shops close until all that are left
// have enough customers. The shops stand in a tree that halves the town again and again, so that a house finds those
// nearby without a look at all others.
#include <algorithm>
#include <iomanip>
#include <iostream>
#include <vector>

constexpr int HOUSES = 120000, SHOPS = 9000, ROUNDS = 4;
constexpr int TOWN = 1 << 20;
// How many shops a leaf of the tree has at most.
constexpr int LEAF = 8;

struct Random {
  unsigned long state = 88172645463325252UL;

  unsigned long next() {
    state ^= state << 13;
    state ^= state >> 7;
    state ^= state << 17;
    return state;
  }
  int below(int most) { return static_cast<int>(next() % static_cast<unsigned long>(most)); }
  // From -most to most, more often near 0.
  int around(int most) {
    const int up = below(most);
    return up - below(most);
  }
};

// A place on the map. Most of them lie around one of some centres.
struct Place {
  int x = 0, y = 0;
};

static int folded(int value) {
  if (value < 0) value = -value;
  return value < TOWN ? value : 2 * TOWN - 1 - value;
}

class Map {
  static const int CENTRES = 12;
  Place centres[CENTRES];

public:
  explicit Map(Random &random) {
    for (Place &centre : centres) {
      centre.x = random.below(TOWN);
      centre.y = random.below(TOWN);
    }
  }
  Place somewhere(Random &random) const {
    Place made;
    if (random.below(4) == 0) {
      made.x = random.below(TOWN);
      made.y = random.below(TOWN);
      return made;
    }
    const Place &centre = centres[random.below(CENTRES)];
    const int size = TOWN / 10;
    made.x = folded(centre.x + random.around(size));
    made.y = folded(centre.y + random.around(size));
    return made;
  }
};

class Shop {
  int number;
  bool is_open = true;
  int size;

public:
  const long x, y;

  Shop(int number, const Place &at, int size) : number(number), size(size), x(at.x), y(at.y) {}

  bool open() const { return is_open; }
  int id() const { return number; }
  // What it draws: large ones more, and near ones more.
  long appeal(long square) const { return is_open ? size * 4096L / (square / 65536 + 64) : 0; }
  void close() { is_open = false; }
  int room() const { return size; }
};

// A part of the town: in two halves, or a leaf. Its shops lie beside each other in the list of all shops.
class Quarter {
  long left, right, bottom, top;
  const std::vector<Shop *> *shops;
  int from, to;
  Quarter *first = nullptr, *second = nullptr;

  // The square of the way to the nearest point of the quarter.
  long way(long x, long y) const {
    const long dx = x < left ? left - x : x > right ? x - right : 0;
    const long dy = y < bottom ? bottom - y : y > top ? y - top : 0;
    return dx * dx + dy * dy;
  }

public:
  Quarter(std::vector<Shop *> &all, int from, int to)
      : left(TOWN), right(0), bottom(TOWN), top(0), shops(&all), from(from), to(to) {
    for (int i = from; i < to; i++) {
      left = std::min(left, all[i]->x);
      right = std::max(right, all[i]->x);
      bottom = std::min(bottom, all[i]->y);
      top = std::max(top, all[i]->y);
    }
    if (to - from > LEAF) split(all);
  }

  // Brings the shops of the lower half in front of the others.
  void split(std::vector<Shop *> &all) {
    const bool is_wide = right - left > top - bottom;
    const long middle = is_wide ? (left + right) / 2 : (bottom + top) / 2;
    int low = from;
    for (int i = from; i < to; i++)
      if ((is_wide ? all[i]->x : all[i]->y) <= middle) std::swap(all[low++], all[i]);
    if (low == from || low == to) return;
    first = new Quarter(all, from, low);
    second = new Quarter(all, low, to);
  }

  // The appeal of all open shops in reach of a place.
  long appeal(long x, long y, long reach) const {
    if (way(x, y) > reach * reach) return 0;
    if (first != nullptr) return first->appeal(x, y, reach) + second->appeal(x, y, reach);
    long sum = 0;
    for (int i = from; i < to; i++) {
      const Shop *shop = (*shops)[i];
      const long dx = shop->x - x, dy = shop->y - y;
      const long square = dx * dx + dy * dy;
      if (square <= reach * reach) sum += shop->appeal(square);
    }
    return sum;
  }

  // How many open shops are in reach.
  long count(long x, long y, long reach) const {
    if (way(x, y) > reach * reach) return 0;
    if (first != nullptr) return first->count(x, y, reach) + second->count(x, y, reach);
    long found = 0;
    for (int i = from; i < to; i++) {
      const Shop *shop = (*shops)[i];
      const long dx = shop->x - x, dy = shop->y - y;
      if (shop->open() && dx * dx + dy * dy <= reach * reach) found++;
    }
    return found;
  }
};

class House {
  long x, y;
  int people;
  long reach;
  long appeal = 0, choice = 0;

public:
  House(const Place &at, int people, long reach) : x(at.x), y(at.y), people(people), reach(reach) {}

  void look(const Quarter *town) {
    appeal = town->appeal(x, y, reach);
    choice = town->count(x, y, reach);
  }
  bool is_served() const { return choice > 0; }
  int inhabitants() const { return people; }
  long choices() const { return choice; }
  long spends() const { return choice > 0 ? people * 100 + appeal / 64 : 0; }
};

class Town {
  std::vector<House *> houses;
  std::vector<Shop *> shops;
  Quarter *whole;

public:
  explicit Town(Random &random) {
    const Map map(random);
    for (int i = 0; i < HOUSES; i++) {
      const Place at = map.somewhere(random);
      const int people = 1 + random.below(5);
      houses.push_back(new House(at, people, TOWN / 128 + random.below(TOWN / 96)));
    }
    for (int i = 0; i < SHOPS; i++) {
      const Place at = map.somewhere(random);
      shops.push_back(new Shop(i, at, 1 + random.below(20)));
    }
    whole = new Quarter(shops, 0, SHOPS);
  }

  void look() {
    for (House *house : houses) house->look(whole);
  }

  // The smallest shops close, a part of them in each round.
  int close(int round) {
    int closed = 0;
    for (Shop *shop : shops)
      if (shop->open() && shop->room() <= 4 * (round + 1) && shop->id() % 3 == round % 3) {
        shop->close();
        closed++;
      }
    return closed;
  }

  void report(int round, int closed) const {
    long people = 0, served = 0, choices = 0, spent = 0;
    for (const House *house : houses) {
      people += house->inhabitants();
      if (house->is_served()) served += house->inhabitants();
      choices += house->choices();
      spent += house->spends();
    }
    std::cout << "round " << round << ": " << std::setw(6) << served << " of " << people << " people reach a shop, "
              << std::setw(3) << choices / HOUSES << " shops a house, " << spent << " spent; " << closed
              << " shops close\n";
  }
};

int main() {
  Random random;
  Town town(random);
  for (int round = 0; round < ROUNDS; round++) {
    town.look();
    const int closed = town.close(round);
    town.report(round, closed);
  }
  return 0;
}
