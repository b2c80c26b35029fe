// Prices go down a net of 36,000 leaves, demands go up, six times.
// Phases: prices down (laterals, branches, leaves), demands up (leaves to branches, along the chains, to the root).
class Root;
class Lateral {
public:
  long p, q, alpha, beta, r, x, pi, qi, came_p, came_q;
  Lateral *next, *before;
  Root *root;
  void start(Root *o, Lateral *b, Lateral *n) {
    root = o;
    before = b;
    next = n;
    r = 3;
    x = 2;
  }
  long price_p() {
    if (before != nullptr) return before->price_p() + alpha;
    return root->theta + alpha;
  }
  long price_q() {
    if (before != nullptr) return before->price_q() + beta;
    return root->tau + beta;
  }
  void price() {
    pi = price_p();
    qi = price_q();
    came_p = 0;
    came_q = 0;
  }
  void come(long ap, long aq) {
    came_p += ap;
    came_q += aq;
  }
  void close() {
    p = came_p + (came_p * came_p + came_q * came_q) / 1000000 * r / 1000000;
    q = came_q + (came_p * came_p + came_q * came_q) / 1000000 * x / 1000000;
  }
  void settle() {
    alpha = p * r / 1000000;
    beta = q * x / 1000000;
  }
  void tell() {
    if (before != nullptr) before->come(p, q);
    else root->come(p, q);
  }
};
class Branch {
public:
  long p, q, alpha, beta, r, x, pi, qi, came_p, came_q;
  Branch *before;
  Lateral *lateral;
  void start(long s, Branch *b, Lateral *l) {
    before = b;
    lateral = l;
    r = 2 + s % 3;
    x = 1 + s % 2;
  }
  long price_p() {
    if (before != nullptr) return before->price_p() + alpha;
    return lateral->pi + alpha;
  }
  long price_q() {
    if (before != nullptr) return before->price_q() + beta;
    return lateral->qi + beta;
  }
  void price() {
    pi = price_p();
    qi = price_q();
    came_p = 0;
    came_q = 0;
  }
  void come(long ap, long aq) {
    came_p += ap;
    came_q += aq;
  }
  void close() {
    p = came_p + (came_p * came_p + came_q * came_q) / 1000000 * r / 100000;
    q = came_q + (came_p * came_p + came_q * came_q) / 1000000 * x / 100000;
  }
  void settle() {
    alpha = p * r / 100000;
    beta = q * x / 100000;
  }
  void tell() {
    if (before != nullptr) before->come(p, q);
    else lateral->come(p, q);
  }
};
class Leaf {
public:
  long p, q;
  Branch *branch;
  void start(Branch *b) { branch = b; }
  long root(long n) {
    long r = 4096;
    for (long k = 0; k < 16; k++) r = (r + n / r) / 2 + 1;
    return r;
  }
  long demand(long most, long price) { return root(most / (price + 1)); }
  void compute() {
    long d = demand(4000000000000, branch->pi);
    long e = demand(1000000000000, branch->qi);
    p = d;
    q = e;
    branch->come(d, e);
  }
};
class Root {
public:
  Lateral *lateral[20];  // by their places in the chains
  Branch *branch[60];
  Leaf *leaf[36000];
  long theta, tau, p, q;
  void build() {
    theta = 800;
    tau = 200;
    for (long i = 0; i < 20; i++) lateral[i] = new Lateral();
    for (long i = 0; i < 60; i++) branch[i] = new Branch();
    for (long i = 0; i < 36000; i++) leaf[i] = new Leaf();
    for (long f = 0; f < 4; f++) {
      long s = f + 1;
      for (long l = 0; l < 5; l++) {
        long i = l * 4 + f;
        Lateral *above = nullptr;
        if (l > 0) above = lateral[i - 4];
        lateral[i]->start(this, above, nullptr);
        long t = s;
        Branch *b = nullptr;
        for (long k = 0; k < 3; k++) {
          branch[k * 20 + i]->start(t, b, lateral[i]);
          b = branch[k * 20 + i];
          t = t * 5 + 1;
          for (long m = 0; m < 600; m++) leaf[(k * 20 + i) * 600 + m]->start(b);
        }
        s = s * 3 + 1;
      }
    }
  }
  void come(long ap, long aq) {
    p += ap;
    q += aq;
  }
  void round() {
    for (long i = 0; i < 20; i++) lateral[i]->price();
    for (long i = 0; i < 60; i++) branch[i]->price();
    for (long i = 0; i < 36000; i++) leaf[i]->compute();
    for (long k = 2; k >= 0; k--) {
      for (long i = 20 * k; i < 20 * k + 20; i++) branch[i]->close();
      for (long i = 20 * k; i < 20 * k + 20; i++) branch[i]->tell();
    }
    for (long k = 4; k >= 0; k--) {
      for (long i = 4 * k; i < 4 * k + 4; i++) lateral[i]->close();
      if (k > 0) for (long i = 4 * k; i < 4 * k + 4; i++) lateral[i]->tell();
    }
    p = 0;
    q = 0;
    for (long i = 0; i < 4; i++) lateral[i]->tell();
    for (long i = 0; i < 20; i++) lateral[i]->settle();
    for (long i = 0; i < 60; i++) branch[i]->settle();
    theta += (p - 4 * 5 * 3 * 600 * 50000) / (4 * 5 * 3 * 600 * 100);
    tau += (q - 4 * 5 * 3 * 600 * 20000) / (4 * 5 * 3 * 600 * 200);
  }
};
int main() {
  Root *r = new Root();
  r->build();
  for (long i = 0; i < 6; i++) r->round();
  print(r->p);
  print(r->q);
  print(r->theta);
  print(r->tau);
  return 0;
}
