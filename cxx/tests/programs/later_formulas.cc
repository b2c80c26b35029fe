// Formulas as trees: their size and depth, their values at several points, and which of them have a variable.
#include <cstdio>
#include <vector>

class Formula {
public:
  enum Kind { NUMBER, VARIABLE, PLUS, TIMES, MINUS };

private:
  Kind kind;
  int number;
  Formula *left, *right;
  bool varies = false;

public:
  Formula(Kind kind, int number, Formula *left, Formula *right) : kind(kind), number(number), left(left), right(right) {}

  int size() const {
    int n = 1;
    if (left) n += left->size();
    if (right) n += right->size();
    return n;
  }
  int depth() const {
    int l = left ? left->depth() : 0;
    int r = right ? right->depth() : 0;
    return 1 + (l > r ? l : r);
  }
  long value(long x) const {
    switch (kind) {
    case NUMBER:
      return number;
    case VARIABLE:
      return x;
    case PLUS:
      return left->value(x) + right->value(x);
    case MINUS:
      return left->value(x) - right->value(x);
    default:
      return left->value(x) * right->value(x) % 10007;
    }
  }
  bool mark() {
    varies = kind == VARIABLE;
    if (left && left->mark()) varies = true;
    if (right && right->mark()) varies = true;
    return varies;
  }
};

static unsigned state = 99;
static int draw(int n) {
  state ^= state << 13;
  state ^= state >> 17;
  state ^= state << 5;
  return state % n;
}

static Formula *grow(int levels) {
  if (levels == 0 || draw(6) == 0)
    return draw(2) ? new Formula(Formula::VARIABLE, 0, nullptr, nullptr)
                   : new Formula(Formula::NUMBER, draw(20), nullptr, nullptr);
  Formula *l = grow(levels - 1);
  Formula *r = grow(levels - 1);
  return new Formula(static_cast<Formula::Kind>(Formula::PLUS + draw(3)), 0, l, r);
}

struct Entry {
  Formula *formula;
  long values[5];
  long total = 0;
  explicit Entry(Formula *f) : formula(f) {}
  void evaluate() {
    for (int i = 0; i < 5; i++) values[i] = formula->value(3 * i + 1);
    for (long v : values) total += v;
  }
};

int main() {
  std::vector<Entry *> table;
  for (int i = 0; i < 24; i++) table.push_back(new Entry(grow(5)));
  int nodes = 0, deepest = 0, varying = 0;
  for (Entry *e : table) nodes += e->formula->size();
  for (Entry *e : table)
    if (e->formula->depth() > deepest) deepest = e->formula->depth();
  for (Entry *e : table) e->evaluate();
  for (Entry *e : table)
    if (e->formula->mark()) varying++;
  long sum = 0;
  for (Entry *e : table) sum = (sum + e->total) % 1000003;
  printf("%d nodes, depth %d, %d vary, sum %ld\n", nodes, deepest, varying, sum);
}
