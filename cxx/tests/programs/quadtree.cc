// A quadtree over points in the plane: insertion, removal, range queries, nearest neighbour and a check of the whole tree,
// compared with plain searches over a list.
#include <algorithm>
#include <array>
#include <cstdint>
#include <iostream>
#include <memory>
#include <vector>

using Coordinate = std::int32_t;

struct Point {
  Coordinate x = 0, y = 0;

  bool operator==(const Point &other) const { return x == other.x && y == other.y; }
  bool operator!=(const Point &other) const { return !(*this == other); }
};

std::ostream &operator<<(std::ostream &out, const Point &p) { return out << '(' << p.x << ", " << p.y << ')'; }

std::int64_t distance2(const Point &a, const Point &b) {
  std::int64_t dx = a.x - b.x, dy = a.y - b.y;
  return dx * dx + dy * dy;
}

struct Box {
  Point low, high;  // both inside

  bool contains(const Point &p) const { return p.x >= low.x && p.x <= high.x && p.y >= low.y && p.y <= high.y; }

  bool meets(const Box &other) const { return low.x <= other.high.x && other.low.x <= high.x && low.y <= other.high.y && other.low.y <= high.y; }

  Point middle() const { return {low.x + (high.x - low.x) / 2, low.y + (high.y - low.y) / 2}; }

  Box quarter(int which) const {
    Point m = middle();
    switch (which) {
    case 0:
      return {low, m};
    case 1:
      return {{m.x + 1, low.y}, {high.x, m.y}};
    case 2:
      return {{low.x, m.y + 1}, {m.x, high.y}};
    default:
      return {{m.x + 1, m.y + 1}, high};
    }
  }

  std::int64_t distance2_to(const Point &p) const {
    Point inside{std::min(std::max(p.x, low.x), high.x), std::min(std::max(p.y, low.y), high.y)};
    return distance2(inside, p);
  }
};

struct Entry {
  Point at;
  int id;
};

class Quadtree {
  static constexpr std::size_t BUCKET = 4;
  static constexpr int MAX_DEPTH = 16;

  struct Node {
    Box box;
    int depth;
    std::vector<Entry> entries;
    std::array<Node *, 4> child{};

    Node(const Box &b, int d) : box(b), depth(d) {}
    bool is_leaf() const { return child[0] == nullptr; }
  };

  Node *root;
  std::size_t count = 0;
  mutable long visited = 0;

  static int index_of(const Node *n, const Point &p) {
    Point m = n->box.middle();
    return (p.x > m.x ? 1 : 0) | (p.y > m.y ? 2 : 0);
  }

  void split(Node *n) {
    for (int i = 0; i < 4; ++i) n->child[i] = new Node(n->box.quarter(i), n->depth + 1);
    for (const Entry &e : n->entries) insert(n->child[index_of(n, e.at)], e);
    n->entries.clear();
  }

  void insert(Node *n, const Entry &e) {
    while (!n->is_leaf()) n = n->child[index_of(n, e.at)];
    n->entries.push_back(e);
    if (n->entries.size() > BUCKET && n->depth < MAX_DEPTH) split(n);
  }

  void query(const Node *n, const Box &range, std::vector<int> &found) const {
    ++visited;
    if (!n->box.meets(range)) return;
    if (n->is_leaf()) {
      for (const auto &e : n->entries)
        if (range.contains(e.at)) found.push_back(e.id);
      return;
    }
    for (const Node *c : n->child) query(c, range, found);
  }

  void nearest(const Node *n, const Point &p, const Entry *&best, std::int64_t &best_distance) const {
    ++visited;
    if (best && n->box.distance2_to(p) >= best_distance) return;
    for (const Entry &e : n->entries) {
      std::int64_t d = distance2(e.at, p);
      if (!best || d < best_distance || (d == best_distance && e.id < best->id)) {
        best = &e;
        best_distance = d;
      }
    }
    if (n->is_leaf()) return;
    int first = index_of(n, p);
    for (int i = 0; i < 4; ++i) nearest(n->child[first ^ i], p, best, best_distance);
  }

  int height(const Node *n) const {
    if (n->is_leaf()) return 1;
    int most = 0;
    for (const Node *c : n->child) most = std::max(most, height(c));
    return most + 1;
  }

  std::size_t check(const Node *n) const {
    std::size_t total = n->entries.size();
    for (const Entry &e : n->entries)
      if (!n->box.contains(e.at)) std::cout << "misplaced " << e.at << '\n';
    if (!n->is_leaf()) {
      if (!n->entries.empty()) std::cout << "inner node with entries\n";
      for (const Node *c : n->child) total += check(c);
    }
    return total;
  }

public:
  explicit Quadtree(const Box &box) : root(new Node(box, 0)) {}

  void insert(const Point &p, int id) {
    insert(root, Entry{p, id});
    ++count;
  }

  bool remove(const Point &p, int id) {
    Node *n = root;
    while (!n->is_leaf()) n = n->child[index_of(n, p)];
    for (std::size_t i = 0; i < n->entries.size(); ++i) {
      if (n->entries[i].id == id && n->entries[i].at == p) {
        n->entries[i] = n->entries.back();
        n->entries.pop_back();
        --count;
        return true;
      }
    }
    return false;
  }

  std::vector<int> in(const Box &range) const {
    std::vector<int> found;
    query(root, range, found);
    return found;
  }

  const Entry *nearest_to(const Point &p) const {
    const Entry *best = nullptr;
    std::int64_t best_distance = 0;
    nearest(root, p, best, best_distance);
    return best;
  }

  std::size_t size() const { return count; }
  int height() const { return height(root); }
  bool is_sound() const { return check(root) == count; }
  long steps() const { return visited; }
};

class Random {
  std::uint64_t seed;

public:
  explicit Random(std::uint64_t s) : seed(s) {}
  Coordinate coordinate(Coordinate limit) {
    seed ^= seed << 7;
    seed ^= seed >> 9;
    return static_cast<Coordinate>(seed % static_cast<std::uint64_t>(limit));
  }
};

int main() {
  const Coordinate SIZE = 1024;
  const Box world{{0, 0}, {SIZE - 1, SIZE - 1}};
  Quadtree tree(world);
  Random random(2463534242ull);
  std::vector<Entry> all;
  for (int id = 0; id < 400; ++id) {
    Point p{random.coordinate(SIZE), id % 3 ? random.coordinate(SIZE) : random.coordinate(64)};
    tree.insert(p, id);
    all.push_back({p, id});
  }
  std::cout << tree.size() << " points, height " << tree.height() << ", " << (tree.is_sound() ? "sound" : "broken") << '\n';

  int removed = 0;
  for (const Entry &e : all)
    if (e.id % 7 == 3 && tree.remove(e.at, e.id)) ++removed;
  std::cout << "removed " << removed << ", twice: " << tree.remove(all[3].at, 3) << '\n';

  long faults = 0;
  long long checksum = 0;
  for (int k = 0; k < 40; ++k) {
    Coordinate x = random.coordinate(SIZE), y = random.coordinate(SIZE);
    Box range{{x, y}, {std::min(x + 200, SIZE - 1), std::min(y + 120, SIZE - 1)}};
    std::vector<int> found = tree.in(range);
    std::size_t expected = 0;
    for (const Entry &e : all)
      if (e.id % 7 != 3 && range.contains(e.at)) ++expected;
    if (found.size() != expected) ++faults;
    for (int id : found) checksum = (checksum * 31 + id) % 1000003;

    Point p{x, y};
    const Entry *near = tree.nearest_to(p);
    const Entry *plain = nullptr;
    for (const Entry &e : all) {
      if (e.id % 7 == 3) continue;
      if (!plain || distance2(e.at, p) < distance2(plain->at, p)) plain = &e;
    }
    if (distance2(near->at, p) != distance2(plain->at, p)) ++faults;
    if (k < 5) std::cout << "nearest to " << p << " is " << near->at << " of " << near->id << '\n';
  }
  std::cout << "faults " << faults << ", checksum " << checksum << ", visited " << tree.steps() << '\n';
  return faults == 0 ? 0 : 1;
}
