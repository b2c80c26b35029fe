// std::list: its ends, iterators both ways, insert and erase on the way, sort, loops along its links.
#include <cstdio>
#include <list>
#include <utility>
#include <vector>
struct Job {
  int number, cost;
  Job(int n, int c) : number(n), cost(c) {}
};
class Machine {
  std::list<Job> waiting;
  std::list<Job *> done;

public:
  void add(int n, int c) { waiting.emplace_back(n, c); }
  void hurry(const Job &job) { waiting.push_front(job); }
  long step() {
    long sum = 0;
    for (Job &job : waiting) job.cost--;
    for (auto it = waiting.begin(); it != waiting.end();) {
      if (it->cost <= 0) {
        done.push_back(new Job(*it));
        it = waiting.erase(it);
      } else {
        sum += it->cost;
        ++it;
      }
    }
    return sum;
  }
  size_t left() const { return waiting.size(); }
  void show() const {
    for (const Job *job : done) printf("%d ", job->number);
    for (auto job : waiting) printf("%d:%d ", job.number, job.cost);
    printf("| %zu %zu\n", done.size(), waiting.size());
  }
};
int main() {
  Machine m;
  for (int i = 0; i < 6; i++) m.add(i, i * i % 5 + 1);
  m.hurry(Job(9, 2));
  while (m.left() > 1) {
    long sum = m.step();
    printf("%ld: ", sum);
    m.show();
  }
  std::list<int> numbers = {5, 3, 8, 1, 9, 2, 8};
  numbers.remove(8);
  numbers.sort();
  numbers.insert(++numbers.begin(), 77);
  numbers.remove_if([](int x) { return x % 3 == 0; });
  std::list<int> other(numbers);
  other.reverse();
  other.pop_back();
  for (int x : numbers) printf("%d ", x);
  for (auto it = other.begin(); it != other.end(); it++) *it += 1;
  for (std::list<int>::iterator it = other.end(); it != other.begin();) printf("%d ", *--it);
  printf("%d %d %zu\n", other.front(), other.back(), other.size());
  std::list<std::pair<int, long>> pairs;
  for (int i = 0; i < 4; i++) pairs.push_back({i, i * 10L});
  for (auto &[key, value] : pairs) value += key;
  long sum = 0;
  for (const auto &p : pairs) sum = sum * 7 + p.second;
  numbers = other;
  numbers.push_back(4);
  printf("%ld %zu %zu %d\n", sum, numbers.size(), other.size(), std::list<int>(3, 6).back());
}
