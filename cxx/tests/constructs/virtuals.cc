// Virtual calls over a closed hierarchy; calls of the base's version; abstract classes.
#include <cstdio>
#include <vector>
class Shape {
protected:
  int n;

public:
  Shape(int k) : n(k) {}
  virtual ~Shape() {}
  virtual int area() const { return n; }
  virtual void grow(int by) { n += by; }
  virtual int kind() const = 0;
  int twice() const { return 2 * area(); }
};
class Square : public Shape {
public:
  Square(int k) : Shape(k) {}
  int area() const override { return n * n; }
  int kind() const override { return 1; }
};
class Big : public Square {
  int extra = 3;

public:
  Big() : Square(10) {}
  int area() const override { return Square::area() + extra; }
  void grow(int by) override {
    Shape::grow(by * 2);
    extra++;
  }
  int kind() const override { return 2; }
};
class Line final : public Shape {
public:
  using Shape::Shape;
  Line() : Shape(4) {}
  int kind() const override { return 3; }
};
int main() {
  std::vector<Shape *> all = {new Square(4), new Big, new Line};
  for (int t = 0; t < 3; t++)
    for (Shape *s : all) s->grow(t + 1);
  for (const Shape *s : all) printf("%d %d %d\n", s->area(), s->twice(), s->kind());
  Big b;
  Shape &r = b;
  r.grow(1);
  printf("%d\n", r.area());
  delete all[0];
}
