// Each rewrite has something to do here: loops, walks and recursions over items of a store.
#include <cstdio>
#include <vector>

struct Tally {
  long sum = 0, most = 0, least = 1000, count = 0;
  bool odd = false;
};

struct Spot {
  long x, y;
  Spot(long x, long y) : x(x), y(y) {}
  Spot operator+(const Spot &o) const { return Spot(x + o.x, y + o.y); }
  long dot(const Spot &o) const { return x * o.x + y * o.y; }
  void turn() {
    long old = x;
    x = -y;
    y = old;
  }
};

static long apart(const Spot &p, const Spot &q) { return (p.x - q.x) * (p.x - q.x) + (p.y - q.y) * (p.y - q.y); }

struct Item {
  long a, b, pulled = 0, pushed = 0;
  Spot spot;
  bool seen = false;
  Item *next = nullptr, *left = nullptr, *right = nullptr;
  std::vector<Item *> near;
  Item(long a, long b) : a(a), b(b), spot(a, 2 * b) {}
  void pull(long m, long x) {
    pulled += m * x;
    pushed -= m;
  }
  void attract(Item *other) const {
    if (other == this) return;
    other->pull(a, b);
    for (Item *o : near) other->pull(o->b, 1);
  }
  long greatest() const {
    long most = 0;
    for (Item *o : near)
      if (o->a > most) most = o->a;
    return most;
  }
  long sum(long k) const {
    long s = a * k;
    if (left) s += left->sum(k);
    if (right) s += right->sum(k);
    return s;
  }
  void spread(Tally *t, long k) {
    t->count++;
    if (left) left->spread(t, k);
    if (right) right->spread(t, k);
    b += k;
  }
  long worth() const { return b * 3 + a; }
  void grow() { b += worth() % 7; }
  void settle() {
    if (left) left->settle();
    if (left && left->b > 9) b -= 3;
    b += 1;
  }
};

// Two lists of cells, each of which reads the other.
struct Cell {
  long value;
  Cell *next = nullptr, *from = nullptr;
  explicit Cell(long v) : value(v) {}
};

static Tally *tally = new Tally;
static long visits = 0;

static void visit(Item *p, long k) {
  if (!p || p->seen) return;
  p->seen = true;
  visits++;
  tally->sum += p->a * k;
  for (Item *o : p->near) visit(o, k);
}

static Cell *cells(int n, long v) {
  Cell *list = nullptr;
  for (int i = 0; i < n; i++) {
    Cell *c = new Cell(v * i % 23);
    c->next = list;
    list = c;
  }
  return list;
}

static void compute(Cell *list) {
  for (Cell *c = list; c; c = c->next) c->value += 3 * c->from->value;
}

struct Store {
  std::vector<Item *> items;
  long table[9] = {};
  Item *list = nullptr;
  long sum(long k) const { return items[0]->sum(k); }
  long most() const {
    long best = -1;
    for (const Item *p : items)
      if (p->b > best) best = p->b;
    return best;
  }
  long step(long k) {
    long total = 0, greatest = 0, t;
    bool any = false;
    for (Item *p : items) {
      t = p->a / (p->b % 5 + 6);
      p->b += t * k;
      total += t;
      if (p->b > greatest) greatest = p->b;
      if (t > 8) any = true;
    }
    for (Item *p : items) {
      long near = 0;
      for (Item *o : p->near) near += o->a;
      p->pushed = near + k;
      if (near > tally->most) tally->most = near;
    }
    for (Item *p : items) {
      p->pulled -= 1;
      items[3]->attract(p);
    }
    for (Item *p : items) {
      p->attract(p->next ? p->next : p);
      p->pulled += p->greatest();
    }
    for (size_t i = 0; i < items.size(); i++)
      for (size_t j = i + 1; j < items.size(); j++) {
        Item *p = items[i], *q = items[j];
        long d = (p->a - q->a) * k * 3 + p->b * 2 - q->b;
        p->pushed += d;
        q->pushed -= d;
      }
    for (Item *p = list; p; p = p->next)
      if (p->next && p->next->a > 20) {
        p->pulled += 2;
        p->pushed += p->next->a;
      }
    return total + greatest + any;
  }
  void grow() {
    for (Item *p : items) p->grow();
  }
  // Who is nearest to k, and which of the list is least, with the one before it.
  long choose(long k) {
    long near = 1000;
    Item *owner = nullptr, *least = nullptr, *before = nullptr, *before_least = nullptr;
    for (Item *p : items) {
      long d = p->a > k * 9 ? p->a - k * 9 : k * 9 - p->a;
      if (p->near.size() > 0 && d < near) {
        near = d;
        owner = p;
      }
    }
    for (Item *p = list; p; before = p, p = p->next) {
      if (p->a % 4 < p->pulled) p->pulled = p->a % 4;
      if (!least || p->pulled < least->pulled) {
        least = p;
        before_least = before;
      }
    }
    return near + owner->b * 100 + least->a * 1000 + (before_least ? before_least->a : 7);
  }
  const Item *heaviest() const {
    const Item *best = items[0];
    for (const Item *p : items)
      if (p->b > best->b) best = p;
    return best;
  }
  long wander(long k) {
    for (Item *p : items) {
      p->spot = p->spot + Spot(k, p->a % 5);
      if (p->spot.x > 20) p->spot.turn();
    }
    return items[1]->spot.dot(items[2]->spot) + apart(items[3]->spot, items[4]->spot);
  }
  void tell(long k) {
    for (size_t i = 0; i < items.size(); i++) table[i] = items[i]->a * k + items[i]->b;
    for (Item *p : items) {
      long d = p->a * k * 3 + 1, e = p->a - k * p->a * 2;
      if (d > e + 20) p->pushed = p->pushed * 2 % 1009 + d * e;
      else p->pulled -= e;
    }
  }
  void meet() {
    for (Item *p : items) {
      if (p->a % 3 == 0) continue;
      Tally *t = tally;
      t->sum += p->a;
      t->count++;
      if (p->b < t->least) t->least = p->b;
      if (p->b % 2) t->odd = true;
    }
  }
};

static long halves(long n) {
  long k = 0;
  while (n > 1) {
    n /= 2;
    k++;
  }
  return k;
}

int main() {
  Store s;
  for (int i = 0; i < 9; i++) {
    Item *p = new Item(i * 7 % 31, i * 5 % 17);
    p->next = s.list;
    s.list = p;
    s.items.push_back(p);
  }
  for (int i = 0; i < 9; i++) {
    if (2 * i + 1 < 9) s.items[i]->left = s.items[2 * i + 1];
    if (2 * i + 2 < 9) s.items[i]->right = s.items[2 * i + 2];
    for (int k = 0; k < i % 4; k++) s.items[i]->near.push_back(s.items[(i * 3 + k) % 9]);
  }
  Cell *red = cells(5, 7), *black = cells(5, 11);
  for (Cell *r = red, *b = black; r && b; r = r->next, b = b->next) {
    r->from = b;
    b->from = r;
  }
  long total = 0;
  for (int t = 1; t < 4; t++) {
    total += s.step(t) + s.sum(t) + halves(total % 1000);
    s.meet();
    s.grow();
    s.tell(t);
    total += s.choose(t) + s.heaviest()->a + s.wander(t);
    s.items[0]->spread(tally, t);
    s.items[0]->settle();
    compute(red);
    for (Cell *c = black; c; c = c->next) c->value -= c->from->value;
  }
  visit(s.items[3], 2);
  visit(s.list, 5);
  printf("%ld %ld %ld\n", total, s.most(), visits);
  for (long one : s.table) printf("%ld\n", one);
  printf("%ld %ld %ld %ld %d\n", tally->sum, tally->most, tally->least, tally->count, tally->odd);
  for (Item *p : s.items) printf("%ld %ld %ld %ld %d %ld %ld\n", p->a, p->b, p->pulled, p->pushed, p->seen, p->spot.x, p->spot.y);
  for (Cell *c = red; c; c = c->next) printf("%ld %ld\n", c->value, c->from->value);
}
