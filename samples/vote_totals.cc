// Districts count their ballots into one total. All that these operations do to what they write is to add, and what they add
// reads nothing of it: so each worker adds to a copy of its own, and nobody waits for the total.
class Total {
public:
  long ballots;
  long yes;
  long margin;
  long weighed;
  void count(long vote, long weight) {
    ballots += 1;
    yes += vote;
    margin = margin + 2 * vote - 1;
    weighed += vote * weight;
  }
};
class District {
public:
  long number;
  long voters;
  long weight;
  long sent;
  Total *total;
  void start(long n, long v, long w, Total *t) {
    number = n;
    voters = v;
    weight = w;
    total = t;
  }
  long vote(long i) {
    return (number + 3 * i + i * i) % 7 % 2;
  }
  void count() {
    sent += voters;
    for (long i = 0; i < voters; i++) total->count(vote(i), weight);
  }
};
class Land {
public:
  District *at[20];
  void make(Total *t) {
    for (long k = 0; k < 20; k++) {
      at[k] = new District();
      at[k]->start(k, 50 + 7 * k, 1 + k % 3, t);
    }
  }
  void count() {
    for (long k = 0; k < 20; k++) at[k]->count();
  }
};
int main() {
  Total *t = new Total();
  Land *l = new Land();
  l->make(t);
  l->count();
  print(t->yes);
  print(2 * t->yes - t->ballots == t->margin);
  return 0;
}
