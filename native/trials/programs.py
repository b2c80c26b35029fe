"""Not proved: programs of the tests, one for each way in which work is shared, large enough that some is given away."""

# Every kind of field, on objects that lie on several pages.
KINDS = """
class Cell {
public:
  long sum, product, greatest, least, all, any, odd, same, times, left, right;
  bool seen, seen_last;
  long items[9];
  void start(long n) { product = 1; all = 0 - 1; left = n; right = 0 - n; greatest = 0 - 9223372036854775807 - 1; least = 9223372036854775807; }
  void take(long v) {
    sum += v - 7;
    product *= 2 * v + 1;
    greatest = max(greatest, 0 - v - 5000);
    if (v < least) least = v;
    all = all & v - 1501;
    any = any | v;
    odd ^= v;
    same = 9;
    items[v % 9] += v;
    if (!seen) {
      seen = true;
      times += 1;
    }
  }
  void swap() {
    long t = left;
    left = right;
    right = t;
  }
  void narrow(long v) {
    all = all & 0 - 1099511627777;
    greatest = max(greatest, 0 - 100 - v);
    if (!seen_last) {
      seen_last = true;
      times += 1;
    }
  }
};
class Cells {
public:
  Cell *at[60];
  void make() {
    for (long i = 0; i < 60; i++) {
      at[i] = new Cell();
      at[i]->start(i + 1);
    }
  }
};
int main() {
  Cells *c = new Cells();
  c->make();
  for (long r = 0; r < 3; r++) {
    for (long i = 0; i < 1501; i++) {
      c->at[i % 60]->take(1500 - i);
      c->at[(i * 7 + r) % 60]->swap();
    }
  }
  for (long i = 0; i < 4001; i++) c->at[i * i % 7]->swap();
  for (long i = 0; i < 4001; i++) c->at[5]->take(i);
  for (long i = 0; i < 60; i++) c->at[i]->narrow(i);
}
"""

# Arrays over pages in objects that are longer than a page, and copies on more pages than one worker folds.
PAGES = """
class Table {
public:
  long at[3000];
  long count;
  void add(long i, long v) {
    at[i] += v;
    count += 1;
  }
};
class Node {
public:
  long pad[20];
  long sum;
  void add(long v) { sum += v; }
};
class Nodes {
public:
  Node *at[6000];
  Table *table[2];
  void make() {
    for (long i = 0; i < 6000; i++) at[i] = new Node();
    for (long i = 0; i < 2; i++) table[i] = new Table();
  }
};
int main() {
  Nodes *n = new Nodes();
  n->make();
  for (long r = 0; r < 3; r++) {
    for (long i = 0; i < 6000; i++) {
      n->at[i]->add(i + r);
      n->at[i * 7 % 6000]->add(r);
    }
    for (long i = 0; i < 6000; i++) n->table[i % 2]->add(i * 31 % 3000, i);
  }
}
"""

# Recursion over a tree and over a graph with a flag, some calls behind one another.
RECURSION = """
class Sum {
public:
  long total;
  void add(long v) { total += v; }
};
class Node {
public:
  bool seen;
  long value, got;
  Node *a, *b, *c;
  Sum *into;
  void link(long v, Node *x, Node *y, Node *z, Sum *s) { value = v; a = x; b = y; c = z; into = s; }
  void visit(long p) {
    got += p;
    if (!seen) {
      seen = true;
      into->add(value);
      if (a != nullptr) a->visit(value);
      if (b != nullptr) b->visit(value + 1);
      if (c != nullptr) {
        c->visit(value + 2);
        into->add(1);
        c->count(3);
      }
    }
  }
  void count(long depth) {
    got += depth;
    if (depth > 0) {
      if (a != nullptr) a->count(depth - 1);
      if (b != nullptr) b->count(depth - 1);
    }
  }
};
class Nodes {
public:
  Node *at[2000];
  Sum *s;
  void make() {
    s = new Sum();
    for (long i = 0; i < 2000; i++) at[i] = new Node();
    for (long i = 0; i < 2000; i++) at[i]->link(i % 10, at[(i * 7 + 1) % 2000], at[(i * 31 + 5) % 2000], at[(i + 1) % 2000], s);
  }
};
int main() {
  Nodes *n = new Nodes();
  n->make();
  n->at[0]->visit(1);
  print(n->s->total);
  for (long i = 0; i < 40; i++) n->at[i * 13]->count(7);
}
"""

# Walks along lists: long ones of light objects, short ones of heavy ones, from several places.
WALKS = """
class Node {
public:
  Node *next;
  long value, got;
  long work[4];
  void link(Node *n, long v) { next = n; value = v; }
  long slow(long n) {
    long s = 0;
    for (long i = 0; i < n; i++) s = s * 3 + i * value;
    return s;
  }
  void walk(long by) {
    got += value * by;
    if (next != nullptr) next->walk(by);
  }
  void heavy(long by) {
    work[by % 4] += slow(300);
    if (next != nullptr) next->heavy(by);
  }
};
class Lists {
public:
  Node *first[5];
  void make(long k, long size) {
    Node *last = nullptr;
    for (long i = 0; i < size; i++) {
      Node *n = new Node();
      n->link(last, i % 17);
      last = n;
    }
    first[k] = last;
  }
};
int main() {
  Lists *l = new Lists();
  for (long i = 0; i < 5; i++) l->make(i, 1 + i * 1700);
  for (long i = 0; i < 5; i++) l->first[i]->walk(i);
  for (long i = 0; i < 4; i++) l->first[1]->heavy(i);
  l->first[4]->walk(9);
}
"""

# Value methods that call two or more of their kind: in an expression, in locals, under conditions.
VALUES = """
class Node {
public:
  long value;
  Node *left, *right;
  void set(long v, Node *l, Node *r) { value = v; left = l; right = r; }
  long sum() {
    if (left == nullptr) return value;
    return value + left->sum() * 3 + right->sum();
  }
  long greatest(long at) {
    if (left == nullptr) return value * at % 1000;
    long a = left->greatest(at + 1);
    long b = right->greatest(at + 2);
    if (a < b) return b - value;
    return a + value;
  }
  bool has(long v) {
    if (left == nullptr) return value == v;
    return left->has(v) || right->has(v);
  }
  Node *far(long d) {
    if (left == nullptr || d == 0) return this;
    Node *a = left->far(d - 1);
    Node *b = right->far(d - 1);
    if (a->value < b->value) return b;
    return a;
  }
  long fib(long n) { if (n < 2) return n; return fib(n - 1) + fib(n - 2) + has_one(); }
  long has_one() { if (has(0 - 1)) return 1; return 0; }
};
class Nodes {
public:
  Node *at[4095];
  void make() {
    for (long i = 0; i < 4095; i++) at[i] = new Node();
    for (long i = 0; i < 2047; i++) at[i]->set(i * 7919 % 1009, at[2 * i + 1], at[2 * i + 2]);
    for (long i = 2047; i < 4095; i++) at[i]->set(i * 7919 % 1009, nullptr, nullptr);
  }
};
int main() {
  Nodes *n = new Nodes();
  n->make();
  for (long i = 0; i < 4; i++) {
    print(n->at[i]->sum() - n->at[0]->greatest(i));
    print(n->at[0]->has(i * 400));
  }
  print(n->at[0]->far(7)->value);
  print(n->at[4000]->fib(12));
}
"""

# First turns light and last ones heavy, none, one, a bound at the counter, loops in loops, whose turns are given back.
LOOPS = """
class Acc {
public:
  long n;
  void add(long v) { n += v; }
};
class Work {
public:
  long total;
  Acc *acc;
  void with(Acc *a) { acc = a; }
  long slow(long n) {
    long s = 0;
    for (long i = 0; i < n; i++) s = s * 5 + i * i;
    return s;
  }
  void turn(long i) {
    total += slow(i / 40 * i);
    acc->add(i);
  }
  void inner(long n, long v) {
    for (long i = 0; i < n; i++) acc->add(i * v);
  }
  void outer(long n) {
    for (long i = 0; i < n; i++) inner(i, i + 1);
  }
};
int main() {
  Work *w = new Work();
  Acc *a = new Acc();
  w->with(a);
  for (long i = 0; i < 0; i++) w->turn(i);
  for (long i = 0; i < 1; i++) w->turn(300);
  for (long i = 0; i < 400; i++) w->turn(i);
  for (long i = 0; i < 300; i++) w->turn(300 - i);
  for (long i = 0; i < 60 - i; i++) w->turn(i * 9);
  for (long k = 0; k < 5; k++) w->outer(100);
}
"""

# An argument is a field that is written: whoever takes it behind the lock reads while another writes. Calls of many values.
ARGUMENTS = """
class Sink {
public:
  long got, many;
  void give(long v) { got += v; }
  void take(long a, long b, long c, long d, long e, long f, long g, long h, long i, long j, long k, long l, long m, long n, long o, long p,
            long q, long r, long s, long t, long u, long v, long w, long x, long y, long z, long aa, long bb, long cc, long dd, long ee, long ff) {
    many += a + 2 * b + 3 * c + d + e + f + g + h + i + j + k + l + m + n + o + p + q + r + s + t + u + v + w + x + y + z + aa + bb + cc + dd + ee + 5 * ff;
  }
};
class A {
public:
  long part;
  Sink *next;
  void tie(Sink *n) { next = n; }
  void put(long v) {
    part = 7;
    next->give(part * v);
    next->give(v);
  }
  void hand(long v) {
    next->take(v, v + 1, v + 2, v, v, v, v, v, v, v, v, v, v, v, v, v, v, v, v, v, v, v, v, v, v, v, v, v, v, v, 3, v);
    next->take(1, 2, 3, 4, 5, 6, 7, 8, 9, 10, 11, 12, 13, 14, 15, 16, 17, 18, 19, 20, 21, 22, 23, 24, 25, 26, 27, 28, 29, 30, 31, v);
  }
};
int main() {
  Sink *s = new Sink();
  A *a = new A();
  A *b = new A();
  a->tie(s);
  b->tie(s);
  for (long i = 0; i < 500; i++) a->put(i);
  for (long i = 0; i < 500; i++) b->put(i);
  for (long i = 0; i < 500; i++) a->hand(i);
}
"""

# Setters, items put at an own index, loops of an operation's own: over different objects, and over some that come twice.
APART = """
class Row {
public:
  long at[40];
  long number, last, steps;
  Row *source;
  void start(long n, Row *s) { number = n; source = s; }
  void compute(long by) {
    for (long k = 0; k < 40; k++) at[k] = at[k] * 3 + number * k + by;
    last = by;
  }
  void note(long v) {
    steps = steps * 5 + v;
    last = v;
  }
  void set(long i, long v) { at[i % 40] = v; }
};
class Rows {
public:
  Row *row[500];
  Row *again[500];
  long shift;
  void make() {
    for (long i = 0; i < 500; i++) row[i] = new Row();
    for (long i = 0; i < 500; i++) again[i] = row[i * 3 % 500];
    for (long i = 0; i < 500; i++) row[i]->start(i, row[(i + 1) % 500]);
    for (long i = 0; i < 250; i++) again[i * 2] = row[7];
  }
  Row *place(long i) { return row[(i + shift) % 500]; }
  void all(long by) {
    for (long i = 0; i < 500; i++) row[i]->compute(by + i);
    for (long i = 0; i < 500; i++) again[i]->note(by * i);
    for (long i = 3; i < 497; i++) place(i)->set(i, by);
    for (long i = 0; i < 500; i++) row[i]->source->note(i);
    for (long i = 0; i < 400; i++) {
      row[i]->note(i);
      row[i]->compute(2);
    }
    for (long i = 0; i < 400; i++) {
      row[i]->note(i);
      row[i + 1]->note(i);
    }
    for (long i = 0; i < 499; i++) row[i]->note(row[i + 1]->steps);
  }
};
int main() {
  Rows *r = new Rows();
  r->make();
  for (long k = 0; k < 40; k++) r->all(k);
  for (long i = 0; i < 500; i++) r->row[i]->compute(i);
}
"""

# Loops over different objects, which ask value methods for what they write: of their own object, and of others.
ASKING = """
class Cell {
public:
  long at[8];
  long number, total;
  Cell *next;
  void start(long n, Cell *other) { number = n; next = other; }
  long sum() {
    long s = 0;
    for (long k = 0; k < 8; k++) s = s * 3 + at[k];
    return s;
  }
  long least() { return min(sum(), total) + number; }
  long beside() { return next->at[0]; }
  long above() { return next->number; }
  void fold(long by) {
    total = total * 5 + sum() + by;
    at[by % 8] = total % 1000;
  }
  void deepen(long by) {
    for (long k = 1; k < 8; k++) at[k] = at[k - 1] + least() % 100 + by;
  }
  void take(long by) { at[1] = at[1] * 2 + beside() + by; }
  void look(long by) { at[0] = at[0] * 2 + next->sum() + by; }
  void rise(long by) { total = total * 3 + next->above() + sum() + by; }
  void cut(long by) { total = (total + sum()) / (by % 7 + 1); }
};
class Cells {
public:
  Cell *cell[500];
  void make() {
    for (long i = 0; i < 500; i++) cell[i] = new Cell();
    for (long i = 0; i < 500; i++) cell[i]->start(i, cell[(i + 1) % 500]);
  }
  void all(long by) {
    for (long i = 0; i < 500; i++) cell[i]->fold(by + i);
    for (long i = 0; i < 500; i++) cell[i]->deepen(by * i);
    for (long i = 0; i < 500; i++) cell[i]->take(by + i);
    for (long i = 0; i < 500; i++) cell[i]->look(by + i);
    for (long i = 0; i < 500; i++) cell[i]->rise(by + i);
    for (long i = 0; i < 500; i++) cell[i]->cut(by + i);
    for (long i = 0; i < 500; i++) cell[by]->fold(by * i);
  }
};
int main() {
  Cells *c = new Cells();
  c->make();
  for (long k = 0; k < 40; k++) c->all(k);
}
"""

# Value methods that go in step, which become one function, and some that don't.
STEPS = """
class Body {
public:
  long x, y, mass, ax, ay, deep, flat, other;
  Body *next;
  Body *near[4];
  void start(long a, long b, long m, Body *n, Body *p) { x = a; y = b; mass = m; next = n; near[0] = p; near[1] = n; near[3] = p; }
  long push_x(long a, long b) {
    long s = 0;
    long d = (x - a) * (x - a) + (y - b) * (y - b) + 1;
    if (d > 7) s += mass * (x - a) / d;
    else s += mass;
    return s;
  }
  long push_y(long a, long b) {
    long t = 0;
    long e = (x - a) * (x - a) + (y - b) * (y - b) + 1;
    if (e > 7) t += mass * (y - b) / e;
    else t += mass * 2;
    return t;
  }
  long all_x(long a, long b) {
    long s;
    for (long i = 0; i < 4; i++) {
      if (near[i] != nullptr) s = s + near[i]->push_x(a, b);
    }
    Body *p = next;
    while (p != nullptr) {
      s += p->push_x(a + 1, b);
      p = p->next;
    }
    return s;
  }
  long all_y(long a, long b) {
    long s;
    for (long k = 0; k < 4; k++) {
      if (near[k] != nullptr) s = s + near[k]->push_y(a, b);
    }
    Body *q = next;
    while (q != nullptr) {
      s += q->push_y(a + 1, b);
      q = q->next;
    }
    return s;
  }
  long all_z(long a, long b) {
    long s;
    for (long k = 0; k < 3; k++) {
      if (near[k] != nullptr) s = s + near[k]->push_y(a, b);
    }
    return s;
  }
  long own_x(long a) { long s = 0; s += a * other; return s; }
  long own_y(long a) { long s = 0; s += a + other; return s; }
  void feel(long k) {
    ax += all_x(k, x);
    ay += all_y(k, x);
    deep += all_z(k, x);
    flat += all_y(k + 1, y);
  }
  void count(long k) {
    other += own_x(k);
    flat += own_y(k);
  }
};
class Bodies {
public:
  Body *at[300];
  void make() {
    for (long i = 0; i < 300; i++) at[i] = new Body();
    for (long i = 0; i < 300; i++) {
      if (i % 20 == 0) at[i]->start(i * 7 % 31, i * 13 % 29, i % 9, nullptr, nullptr);
      else at[i]->start(i * 7 % 31, i * 13 % 29, i % 9, at[i - 1], at[i / 2]);
    }
  }
};
int main() {
  Bodies *b = new Bodies();
  b->make();
  for (long r = 0; r < 5; r++) {
    for (long i = 0; i < 300; i++) b->at[i]->feel(i + r);
    for (long i = 0; i < 300; i++) b->at[i]->count(i);
  }
}
"""

ALL = {
    "kinds": KINDS,
    "pages": PAGES,
    "recursion": RECURSION,
    "walks": WALKS,
    "values": VALUES,
    "loops": LOOPS,
    "arguments": ARGUMENTS,
    "apart": APART,
    "asking": ASKING,
    "steps": STEPS,
}

# Those of which nothing is marked: they are shared only where objects turn out to be different.
UNMARKED = {"apart", "asking"}
