// Writes to other objects, results of operations, chains of calls.
#include <cstdio>
class Account {
public:
  long balance = 0;
  int moves = 0;
  Account *partner = nullptr;
  long take(long n) {
    if (n > balance) return 0;
    balance -= n;
    moves++;
    return n;
  }
  Account &put(long n) {
    balance += n;
    return *this;
  }
};
static long pass(Account *from, Account *to, long n) {
  long got = from->take(n);
  to->balance += got;
  to->moves++;
  return got;
}
int main() {
  Account a, b;
  a.put(100).put(20).put(3);
  a.partner = &b;
  a.partner->balance = 5;
  a.partner->moves |= 8;
  printf("%ld %ld\n", pass(&a, &b, 60), pass(&b, &a, 1000));
  if (a.take(10) + b.take(5) == 15) a.partner->balance *= 2;
  printf("%ld %ld %d %d\n", a.balance, b.balance, a.moves, b.moves);
}
