// A bank: customers arrive at random, choose the shortest of several queues, change queues when another one is much
// shorter, and are served by tellers of different speed. Reports waiting times, the longest queue and each teller's work.
#include <algorithm>
#include <cassert>
#include <iomanip>
#include <iostream>
#include <queue>
#include <vector>

namespace bank {

const int OPENING_MINUTES = 480;
const int TELLERS = 5;
const int PATIENCE = 25;

class Random {
  unsigned long long state;

public:
  explicit Random(unsigned long long seed) : state(seed) {}

  unsigned next() {
    state = state * 6364136223846793005ULL + 1442695040888963407ULL;
    return static_cast<unsigned>(state >> 33);
  }

  int below(int n) { return static_cast<int>(next() % static_cast<unsigned>(n)); }

  int between(int low, int high) { return low + below(high - low + 1); }

  bool chance(int percent) { return below(100) < percent; }
};

enum class Task { Deposit, Withdrawal, Transfer, Complaint };

const char *name_of(Task task) {
  switch (task) {
  case Task::Deposit:
    return "deposit";
  case Task::Withdrawal:
    return "withdrawal";
  case Task::Transfer:
    return "transfer";
  case Task::Complaint:
    return "complaint";
  }
  return "nothing";
}

int minutes_for(Task task) {
  switch (task) {
  case Task::Deposit:
    return 3;
  case Task::Withdrawal:
    return 2;
  case Task::Transfer:
    return 6;
  default:
    return 12;
  }
}

struct Customer {
  int id;
  int arrived;
  Task task;
  long amount;
  bool vip;
};

class Statistics {
  long total_wait = 0;
  int served = 0;
  int left = 0;
  int longest_wait = 0;
  int by_task[4] = {0, 0, 0, 0};
  std::vector<int> waits;

public:
  void record(const Customer &c, int now) {
    int wait = now - c.arrived;
    total_wait += wait;
    served++;
    longest_wait = std::max(longest_wait, wait);
    by_task[static_cast<int>(c.task)]++;
    waits.push_back(wait);
  }

  void record_leaving() { ++left; }

  long mean_in_tenths() const { return served == 0 ? 0 : total_wait * 10 / served; }

  int median() const {
    if (waits.empty()) return 0;
    std::vector<int> sorted = waits;
    for (size_t i = 1; i < sorted.size(); ++i) {
      int value = sorted[i];
      size_t j = i;
      while (j > 0 && sorted[j - 1] > value) {
        sorted[j] = sorted[j - 1];
        --j;
      }
      sorted[j] = value;
    }
    return sorted[sorted.size() / 2];
  }

  void print() const {
    std::cout << "served " << served << ", left " << left << "\n";
    long mean = mean_in_tenths();
    std::cout << "mean wait " << mean / 10 << '.' << mean % 10 << ", median " << median() << ", longest " << longest_wait << "\n";
    for (int t = 0; t < 4; t++) std::cout << std::setw(12) << name_of(static_cast<Task>(t)) << std::setw(6) << by_task[t] << "\n";
  }
};

class Teller {
  int number;
  int slowness;  // in percent of the usual time
  int busy_until = 0;
  int worked = 0;
  long cash = 10000;
  std::queue<Customer> line;

public:
  Teller(int n, int slow) : number(n), slowness(slow) {}

  size_t waiting() const { return line.size(); }
  bool is_free(int now) const { return busy_until <= now; }
  void join(const Customer &c) { line.push(c); }
  const Customer &first() const { return line.front(); }

  Customer take_first() {
    Customer c = line.front();
    line.pop();
    return c;
  }

  void serve(int now, Statistics &stats) {
    if (line.empty() || !is_free(now)) return;
    Customer c = take_first();
    if (now - c.arrived > PATIENCE && !c.vip) {
      stats.record_leaving();
      return;
    }
    int minutes = (minutes_for(c.task) * slowness + 99) / 100;
    if (c.task == Task::Deposit)
      cash += c.amount;
    else if (c.task == Task::Withdrawal) {
      if (cash < c.amount) {
        minutes += 5;
        cash += 5000;
      }
      cash -= c.amount;
    }
    assert(cash >= 0);
    busy_until = now + minutes;
    worked += minutes;
    stats.record(c, now);
  }

  void print() const { std::cout << "teller " << number << ": worked " << worked << " minutes, cash " << cash << ", still waiting " << waiting() << "\n"; }
};

class Bank {
  Random random;
  std::vector<Teller> tellers;
  Statistics stats;
  int next_id = 1;
  size_t longest_line = 0;
  int changes = 0;

  Teller &shortest() {
    size_t best = 0;
    for (size_t i = 1; i < tellers.size(); i++)
      if (tellers[i].waiting() < tellers[best].waiting()) best = i;
    return tellers[best];
  }

  Customer arrival(int now) {
    Customer c;
    c.id = next_id++;
    c.arrived = now;
    c.task = static_cast<Task>(random.below(4));
    c.amount = 10L * random.between(1, 200);
    c.vip = c.id % 17 == 0;
    return c;
  }

  void rebalance() {
    for (Teller &from : tellers) {
      Teller &to = shortest();
      if (&from == &to) continue;
      if (from.waiting() > to.waiting() + 2) {
        to.join(from.take_first());
        changes++;
      }
    }
  }

public:
  explicit Bank(unsigned long long seed) : random(seed) {
    for (int i = 0; i < TELLERS; i++) tellers.push_back(Teller(i + 1, 80 + 15 * i));
  }

  void run() {
    for (int now = 0; now < OPENING_MINUTES; ++now) {
      int arrivals = random.chance(60) ? 1 : 0;
      if (now > 180 && now < 300) arrivals += random.below(3);
      for (int k = 0; k < arrivals; k++) shortest().join(arrival(now));
      rebalance();
      for (Teller &t : tellers) {
        longest_line = std::max(longest_line, t.waiting());
        t.serve(now, stats);
      }
    }
  }

  void report() const {
    stats.print();
    std::cout << "longest line " << longest_line << ", changes " << changes << "\n";
    for (const Teller &t : tellers) t.print();
  }
};

}  // namespace bank

int main() {
  for (unsigned long long seed = 1; seed <= 3; seed++) {
    bank::Bank b(seed * 7919);
    b.run();
    std::cout << "day " << seed << "\n";
    b.report();
  }
  return 0;
}
