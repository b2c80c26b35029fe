// Heat in a rod of pieces, some of which are heated; and a log of what was hottest.
#include <algorithm>
#include <iostream>
#include <vector>

const int PIECES = 120;
const long AMBIENT = 2000;

struct Piece {
  long heat = AMBIENT, next_heat = 0;
  long source = 0;
  int material = 0;
  Piece *left = nullptr, *right = nullptr;
};

struct Material {
  long conducts;
  long lost = 0;
  int pieces = 0;
};

std::vector<Piece *> rod;
std::vector<Material *> materials;
long hottest = 0;

void lay() {
  for (long c : {3, 5, 8}) {
    Material *m = new Material{c};
    materials.push_back(m);
  }
  Piece *before = nullptr;
  for (int i = 0; i < PIECES; i++) {
    Piece *p = new Piece;
    p->material = i / 7 % 3;
    p->left = before;
    if (before) before->right = p;
    if (i % 31 == 5) p->source = 400;
    before = p;
    rod.push_back(p);
  }
}

void spread() {
  for (Piece *p : rod) {
    long from_left = p->left ? p->left->heat : AMBIENT;
    long from_right = p->right ? p->right->heat : AMBIENT;
    long flow = (from_left - p->heat) + (from_right - p->heat);
    p->next_heat = p->heat + p->source + flow * materials[p->material]->conducts / 32;
  }
}

void cool() {
  for (size_t i = 0; i < rod.size(); i++) {
    Piece &p = *rod[i];
    long loss = p.next_heat > AMBIENT ? (p.next_heat - AMBIENT) / 64 : 0;
    p.heat = p.next_heat - loss;
    materials[p.material]->lost += loss;
  }
}

long warm(long bound) {
  long count = 0;
  for (Piece *p : rod)
    if (p->heat > bound) count++;
  return count;
}

int main() {
  lay();
  for (Piece *p : rod) materials[p->material]->pieces++;
  for (int t = 0; t < 40; t++) {
    spread();
    cool();
    for (Piece *p : rod) hottest = std::max(hottest, p->heat);
  }
  std::cout << "hottest " << hottest << ", warm " << warm(3000) << "\n";
  for (Material *m : materials) std::cout << m->conducts << ": " << m->pieces << " pieces lost " << m->lost << "\n";
}
