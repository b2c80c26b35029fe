// A drop of fluid falls into a basin: particles that press each other away where they are dense, in whole numbers.
// A length of 1 is 256 units. Particles feel only those nearby, so they are sorted into the cells of a grid.
#include <algorithm>
#include <cstdio>
#include <vector>

const int UNIT = 256;
const int COLUMNS = 96, ROWS = 64, STEPS = 24;
// A particle feels others nearer than this, which is the width of a cell.
const long REACH = 4 * UNIT;
const long WIDTH = COLUMNS * REACH, HEIGHT = ROWS * REACH;
const long GRAVITY = 6, FRICTION = 20;
const long REST_DENSITY = 9000;
const long FASTEST = 3 * UNIT;

static long limited(long value, long most) { return std::max(-most, std::min(most, value)); }

class Particle {
public:
  long x, y;
  long speed_x, speed_y;
  long density, pressure;
  long push_x, push_y;
  int color;

  Particle(long x, long y, int color)
      : x(x), y(y), speed_x(0), speed_y(0), density(0), pressure(0), push_x(0), push_y(0), color(color) {}

  void forget() { density = push_x = push_y = 0; }

  // How much one that is so far away counts: 0 from REACH on.
  static long weight(long square) {
    const long reach = REACH * REACH / UNIT;
    const long left = reach - square / UNIT;
    return left <= 0 ? 0 : left * left / (reach * reach / 1024);
  }

  void crowd(long other_x, long other_y) {
    const long dx = other_x - x, dy = other_y - y;
    density += weight(dx * dx + dy * dy);
  }

  // Only what is denser than at rest presses.
  void settle() { pressure = std::max(0L, density - REST_DENSITY / 8); }

  void feel(long other_x, long other_y, long other_pressure, long other_speed_x, long other_speed_y) {
    const long dx = x - other_x, dy = y - other_y;
    const long near = weight(dx * dx + dy * dy);
    if (near == 0) return;
    const long force = near * (pressure + other_pressure) / 65536;
    push_x += dx * force / 16384;
    push_y += dy * force / 16384;
    push_x += (other_speed_x - speed_x) * near / 1024 / FRICTION;
    push_y += (other_speed_y - speed_y) * near / 1024 / FRICTION;
  }

  void move() {
    speed_x = limited(speed_x + push_x, FASTEST);
    speed_y = limited(speed_y + push_y - GRAVITY, FASTEST);
    x += speed_x / 4;
    y += speed_y / 4;
    // The walls of the basin throw back half of what comes.
    if (x < 0) {
      x = -x;
      speed_x = -speed_x / 2;
    }
    if (x >= WIDTH) {
      x = 2 * WIDTH - 1 - x;
      speed_x = -speed_x / 2;
    }
    if (y < 0) {
      y = -y;
      speed_y = -speed_y / 2;
    }
    if (y >= HEIGHT) {
      y = 2 * HEIGHT - 1 - y;
      speed_y = -speed_y / 2;
    }
  }

  long energy() const { return (speed_x * speed_x + speed_y * speed_y) / 2 + GRAVITY * y; }
};

// A cell of the grid: the particles in it, and the cells around it with itself.
class Cell {
  std::vector<Particle *> inside;
  std::vector<Cell *> around;

public:
  void add_neighbour(Cell *other) { around.push_back(other); }
  void clear() { inside.clear(); }
  void add(Particle *it) { inside.push_back(it); }
  size_t count() const { return inside.size(); }

  void crowd(Particle *it) const {
    for (const Particle *other : inside) it->crowd(other->x, other->y);
  }
  void press(Particle *it) const {
    for (const Particle *other : inside)
      it->feel(other->x, other->y, other->pressure, other->speed_x, other->speed_y);
  }

  void find_density() {
    for (Particle *it : inside)
      for (const Cell *cell : around) cell->crowd(it);
  }
  void find_push() {
    for (Particle *it : inside)
      for (const Cell *cell : around) cell->press(it);
  }
};

class Basin {
  std::vector<Cell *> cells;
  std::vector<Particle *> particles;

  Cell *at(int column, int row) const { return cells[row * COLUMNS + column]; }

  Cell *cell_of(const Particle *it) const {
    const long column = std::max(0L, std::min<long>(COLUMNS - 1, it->x / REACH));
    const long row = std::max(0L, std::min<long>(ROWS - 1, it->y / REACH));
    return at(column, row);
  }

  void sort() {
    for (Cell *cell : cells) cell->clear();
    for (Particle *it : particles) cell_of(it)->add(it);
  }

public:
  Basin() {
    for (int i = 0; i < COLUMNS * ROWS; i++) cells.push_back(new Cell);
    for (int row = 0; row < ROWS; row++)
      for (int column = 0; column < COLUMNS; column++)
        for (int down = -1; down <= 1; down++)
          for (int right = -1; right <= 1; right++) {
            const int to_row = row + down, to_column = column + right;
            if (to_row < 0 || to_row >= ROWS || to_column < 0 || to_column >= COLUMNS) continue;
            at(column, row)->add_neighbour(at(to_column, to_row));
          }
  }

  // Particles in a rectangle, a step apart, each a little beside its place.
  void fill(long left, long bottom, long right, long top, long step, int color) {
    unsigned shake = 1;
    for (long y = bottom; y < top; y += step)
      for (long x = left; x < right; x += step) {
        shake = shake * 1664525u + 1013904223u;
        particles.push_back(new Particle(x + (shake >> 16) % 32, y + (shake >> 24) % 32, color));
      }
  }

  // All that one step reads of others was written by the loop before: densities from places, pushes from densities
  // and speeds. So each loop can go by particle or by cell in any order.
  void step() {
    sort();
    for (Particle *it : particles) it->forget();
    for (Cell *cell : cells) cell->find_density();
    for (Particle *it : particles) it->settle();
    for (Cell *cell : cells) cell->find_push();
    for (Particle *it : particles) it->move();
  }

  void report(int number) const {
    long energy = 0, highest = 0, fullest = 0;
    for (const Particle *it : particles) {
      energy += it->energy();
      highest = std::max(highest, it->y);
    }
    for (const Cell *cell : cells) fullest = std::max<long>(fullest, cell->count());
    printf("%3d: energy %ld, highest at %ld.%02ld, at most %ld in a cell\n", number, energy, highest / UNIT,
           highest % UNIT * 100 / UNIT, fullest);
  }

  // The basin from the side, a letter for sixteen cells: nothing, few particles, many, as many as at rest.
  void draw() const {
    const int size = 4;
    for (int row = ROWS - size; row >= 0; row -= size) {
      for (int column = 0; column < COLUMNS; column += size) {
        size_t count = 0;
        for (int i = 0; i < size * size; i++) count += at(column + i % size, row + i / size)->count();
        putchar(count == 0 ? '.' : count < 60 ? ':' : count < 180 ? 'o' : '#');
      }
      putchar('\n');
    }
  }
};

int main() {
  Basin basin;
  // What lies in the basin, and the drop above it.
  basin.fill(0, 0, WIDTH, HEIGHT / 4, 300, 0);
  basin.fill(3 * WIDTH / 8, HEIGHT / 2, 5 * WIDTH / 8, 3 * HEIGHT / 4, 300, 1);
  for (int number = 1; number <= STEPS; number++) {
    basin.step();
    if (number % 6 == 0) basin.report(number);
  }
  basin.draw();
  return 0;
}
