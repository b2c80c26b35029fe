// Two galaxies that pass each other: stars in space, pulled by all the others through an octree (Barnes and Hut's
// method), in whole numbers. A length of 1 is 1,024 units.
#include <cstdio>
#include <vector>

namespace {

const int STARS = 12000, STEPS = 3;
const long UNIT = 1024;
const long HALF_SPACE = 1L << 22;
const long SOFTENING = 64 * UNIT;
const int LEVELS = 20;

// Numbers that look like chance, always the same.
class Chance {
  unsigned state;

public:
  explicit Chance(unsigned seed) : state(seed) {}
  unsigned next() {
    state ^= state << 13;
    state ^= state >> 17;
    state ^= state << 5;
    return state;
  }
  // From -most to most, more often near 0.
  long around(long most) {
    const long range = 2 * most + 1;
    const long one = static_cast<long>(next()) % range, other = static_cast<long>(next()) % range;
    return (one + other) / 2 - most;
  }
};

// The whole part of a square root.
long root(long square) {
  if (square < 2) return square;
  long guess = 1;
  while (guess * guess < square) guess *= 2;
  long better = (guess + square / guess) / 2;
  while (better < guess) {
    guess = better;
    better = (guess + square / guess) / 2;
  }
  return guess;
}

struct Star {
  long mass;
  long x, y, z;
  long speed_x, speed_y, speed_z;
  long pull_x = 0, pull_y = 0, pull_z = 0;

  Star(long mass, long x, long y, long z, long speed_x, long speed_y, long speed_z)
      : mass(mass), x(x), y(y), z(z), speed_x(speed_x), speed_y(speed_y), speed_z(speed_z) {}

  void rest() { pull_x = pull_y = pull_z = 0; }

  // The pull of a mass at a place.
  void feel(long other, long at_x, long at_y, long at_z) {
    const long dx = (at_x - x) / 64, dy = (at_y - y) / 64, dz = (at_z - z) / 64;
    const long square = dx * dx + dy * dy + dz * dz + SOFTENING;
    const long distance = root(square);
    const long force = (other << 26) / (square * distance / 256 + 1);
    pull_x += force * dx / UNIT;
    pull_y += force * dy / UNIT;
    pull_z += force * dz / UNIT;
  }

  void move(long time) {
    speed_x += pull_x * time / UNIT;
    speed_y += pull_y * time / UNIT;
    speed_z += pull_z * time / UNIT;
    x += speed_x * time / 16;
    y += speed_y * time / 16;
    z += speed_z * time / 16;
  }

  long energy() const { return mass * (speed_x * speed_x + speed_y * speed_y + speed_z * speed_z) / 2 / UNIT; }

  bool is_inside() const {
    return -HALF_SPACE < x && x < HALF_SPACE && -HALF_SPACE < y && y < HALF_SPACE && -HALF_SPACE < z && z < HALF_SPACE;
  }
};

// A cube of space: a leaf with one star, or eight smaller cubes; with the mass in it and where that is on average.
class Cube {
  long middle_x, middle_y, middle_z, half;
  int level;
  long mass = 0, at_x = 0, at_y = 0, at_z = 0;
  Star *star = nullptr;
  bool is_split = false;
  Cube *parts[8];

  int which(const Star *it) const {
    return (it->x >= middle_x ? 1 : 0) + (it->y >= middle_y ? 2 : 0) + (it->z >= middle_z ? 4 : 0);
  }

  Cube *part_of(const Star *it) {
    const int number = which(it);
    if (parts[number] == nullptr) {
      const long quarter = half / 2;
      parts[number] =
          new Cube(middle_x + (number & 1 ? quarter : -quarter), middle_y + (number & 2 ? quarter : -quarter),
                   middle_z + (number & 4 ? quarter : -quarter), quarter, level + 1);
    }
    return parts[number];
  }

public:
  Cube(long middle_x, long middle_y, long middle_z, long half, int level)
      : middle_x(middle_x), middle_y(middle_y), middle_z(middle_z), half(half), level(level) {
    for (int i = 0; i < 8; i++) parts[i] = nullptr;
  }

  void insert(Star *it) {
    if (!is_split && star == nullptr) {
      star = it;
      return;
    }
    if (level == LEVELS) return; // too near to each other: the first one stands for both
    if (!is_split) {
      Star *before = star;
      star = nullptr;
      is_split = true;
      part_of(before)->insert(before);
    }
    part_of(it)->insert(it);
  }

  // Masses from below.
  void weigh() {
    if (star != nullptr) {
      mass = star->mass;
      at_x = star->x;
      at_y = star->y;
      at_z = star->z;
      return;
    }
    long sum_x = 0, sum_y = 0, sum_z = 0;
    for (int i = 0; i < 8; i++) {
      Cube *part = parts[i];
      if (part == nullptr) continue;
      part->weigh();
      mass += part->mass;
      sum_x += part->mass * part->at_x;
      sum_y += part->mass * part->at_y;
      sum_z += part->mass * part->at_z;
    }
    if (mass > 0) {
      at_x = sum_x / mass;
      at_y = sum_y / mass;
      at_z = sum_z / mass;
    }
  }

  // Pulls a star: as one mass where the cube is far enough, else by its parts.
  void pull(Star *it) const {
    if (mass == 0 || star == it) return;
    const long dx = at_x - it->x, dy = at_y - it->y, dz = at_z - it->z;
    if (star != nullptr || 5 * half * half < dx * dx + dy * dy + dz * dz) {
      it->feel(mass, at_x, at_y, at_z);
      return;
    }
    for (int i = 0; i < 8; i++)
      if (parts[i] != nullptr) parts[i]->pull(it);
  }

  int cubes() const {
    int count = 1;
    for (int i = 0; i < 8; i++)
      if (parts[i] != nullptr) count += parts[i]->cubes();
    return count;
  }
};

class Sky {
  std::vector<Star *> stars;
  Cube *space = nullptr;

public:
  // A ball of stars that drifts.
  void add_galaxy(int count, long middle_x, long middle_y, long drift_x, long drift_y, Chance &chance) {
    for (int i = 0; i < count; i++) {
      const long size = 300 * UNIT;
      const long x = chance.around(size), y = chance.around(size), z = chance.around(size / 4);
      stars.push_back(new Star(50 + i % 100, middle_x + x, middle_y + y, z, drift_x - y / UNIT, drift_y + x / UNIT,
                               chance.around(8)));
    }
  }

  void step(long time) {
    space = new Cube(0, 0, 0, HALF_SPACE, 0);
    for (Star *star : stars)
      if (star->is_inside()) space->insert(star);
    space->weigh();
    for (Star *star : stars) {
      star->rest();
      space->pull(star);
    }
    for (Star *star : stars) star->move(time);
  }

  void report(int number) const {
    long energy = 0, far = 0;
    int outside = 0;
    for (const Star *star : stars) {
      energy += star->energy();
      const long square = star->x / UNIT * (star->x / UNIT) + star->y / UNIT * (star->y / UNIT);
      if (square > far) far = square;
      if (!star->is_inside()) outside++;
    }
    printf("step %d: energy %ld, the farthest star at %ld, %d outside, %d cubes\n", number, energy, root(far), outside,
           space->cubes());
  }

  void show(int from, int to) const {
    for (int i = from; i < to; i++) {
      const Star *star = stars[i];
      printf("%8ld %8ld %8ld\n", star->x / UNIT, star->y / UNIT, star->z / UNIT);
    }
  }
};

} // namespace

int main() {
  Chance chance(2463534242u);
  Sky sky;
  sky.add_galaxy(STARS / 2, -500 * UNIT, -200 * UNIT, 40, 10, chance);
  sky.add_galaxy(STARS - STARS / 2, 500 * UNIT, 200 * UNIT, -40, -10, chance);
  for (int number = 1; number <= STEPS; number++) {
    sky.step(32);
    sky.report(number);
  }
  sky.show(0, 5);
  sky.show(STARS - 5, STARS);
  return 0;
}
