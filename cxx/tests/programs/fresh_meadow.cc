// A meadow of cells with grass, rabbits that eat and move on, and foxes that look for the nearest rabbit.
#include <algorithm>
#include <cstdio>
#include <cstdlib>
#include <vector>

const int SIDE = 12;

struct Cell {
  int row, column;
  long grass, seeds = 0, eaten = 0;
  std::vector<Cell *> around;
  void grow() {
    grass = std::min(grass + grass / 8 + seeds + 1, 400L);
    seeds = 0;
  }
  void sow() {
    for (Cell *c : around) c->seeds += grass / 100;
  }
};

struct Rabbit {
  Cell *here;
  long weight = 20;
  int age = 0;
  bool alive = true;
  Rabbit *next;
  Rabbit(Cell *c, Rabbit *n) : here(c), next(n) {}
  void eat() {
    long bite = weight / 4 + 1;
    weight += bite / 2;
    here->eaten += bite;
  }
  void tire() {
    age++;
    weight -= 2 + age / 3;
    if (weight <= 0) alive = false;
  }
  // To the greenest cell near.
  void hop() {
    Cell *best = here;
    for (Cell *c : here->around)
      if (c->grass > best->grass) best = c;
    here = best;
  }
};

struct Fox {
  int row, column;
  long hunger = 0;
  long look(const Rabbit *r) const { return std::abs(row - r->here->row) + std::abs(column - r->here->column); }
};

struct Meadow {
  std::vector<Cell> cells;
  std::vector<Fox> foxes;
  Rabbit *rabbits = nullptr;

  Meadow() : cells(SIDE * SIDE), foxes(5) {
    for (int i = 0; i < SIDE * SIDE; i++) {
      Cell &c = cells[i];
      c.row = i / SIDE;
      c.column = i % SIDE;
      c.grass = i * 37 % 211;
      for (int dr = -1; dr <= 1; dr++)
        for (int dc = -1; dc <= 1; dc++) {
          int r = c.row + dr, k = c.column + dc;
          if ((dr || dc) && r >= 0 && r < SIDE && k >= 0 && k < SIDE) c.around.push_back(&cells[r * SIDE + k]);
        }
    }
    for (int i = 0; i < 40; i++) rabbits = new Rabbit(&cells[i * 29 % (SIDE * SIDE)], rabbits);
    for (int i = 0; i < 5; i++) {
      foxes[i].row = i * 5 % SIDE;
      foxes[i].column = i * 7 % SIDE;
    }
  }

  void day() {
    for (Cell &c : cells) c.sow();
    for (Cell &c : cells) c.grow();
    for (Rabbit *r = rabbits; r; r = r->next)
      if (r->alive) r->eat();
    for (Cell &c : cells) {
      c.grass = std::max(c.grass - c.eaten, 0L);
      c.eaten = 0;
    }
    for (Rabbit *r = rabbits; r; r = r->next)
      if (r->alive) r->hop();
    for (Rabbit *r = rabbits; r; r = r->next) r->tire();
    for (Fox &f : foxes) {
      long nearest = 1000;
      for (Rabbit *r = rabbits; r; r = r->next)
        if (r->alive) nearest = std::min(nearest, f.look(r));
      f.hunger += nearest;
    }
  }

  int alive() const {
    int count = 0;
    for (Rabbit *r = rabbits; r; r = r->next) count += r->alive;
    return count;
  }

  long green() const {
    long sum = 0;
    for (const Cell &c : cells) sum += c.grass;
    return sum;
  }
};

int main() {
  Meadow m;
  for (int d = 1; d <= 12; d++) {
    m.day();
    if (d % 3 == 0) printf("day %d: %d rabbits, %ld grass\n", d, m.alive(), m.green());
  }
  Rabbit *heaviest = m.rabbits;
  for (Rabbit *r = m.rabbits; r; r = r->next)
    if (r->weight > heaviest->weight) heaviest = r;
  printf("%ld %d\n", heaviest->weight, heaviest->age);
  for (const Fox &f : m.foxes) printf("%ld\n", f.hunger);
}
