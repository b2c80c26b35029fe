# Not proved: a part of the fuzzer of cxx/, which compares the front with g++ by tests alone.
"""Statements over what stands in front of each program: a struct by value, templates, an enum, a table, references."""

from __future__ import annotations

from shapes import Scope, Variable
from statements import Lines, Statements, indented

HEAD = """
enum Hue { Red = 2, Green, Blue = 9 };
enum class Mode : int { Off, On = 4 };
constexpr int Width = 3;
static const long Scale = 7;
#define TWICE(x) ((x) + (x))
struct Pair {
  int a = 1;
  long b = 2;
  long sum() const { return a + b; }
  Pair plus(const Pair &other) const { return Pair{(a + other.a) % 101, (b + other.b) % 103}; }
  Pair operator-(const Pair &other) const { return Pair{(a - other.a) % 101, (b - other.b) % 103}; }
  Pair &operator+=(int more) { a = (a + more) % 101; b--; return *this; }
  bool operator==(const Pair &other) const { return a == other.a && b == other.b; }
  long &tail() { return b; }
  const int &head() const { return a; }
};
template <class T> T larger(T x, T y) { return x < y ? y : x; }
template <class T, int N> struct Ring {
  T item[N] = {};
  int at = 0;
  void push(T x) { item[at] = x; at = (at + 1) % N; }
  T sum() const { T s = 0; for (int i = 0; i < N; i++) s += item[i]; return s; }
};
static Ring<int, 3> ring;
static int table[Width][2] = {{1, 2}, {3}};
static void swap_them(long &x, long &y) { long t = x; x = y; y = t; }
static int counted() { static int calls = 0; return ++calls; }
static unsigned long mix(unsigned long h) { h ^= h >> 33; h *= 18397679294719823053ul; return h ^ (h >> 29); }
static std::vector<Pair> pairs;
""".strip().split(
    "\n"
)


class Extras(Statements):
    """Adds statements over the head to those of every program."""

    def extra(self, scope: Scope) -> Lines:
        """One statement over the head that may stand where effects may."""
        return self.random.choice(
            (
                self.pair,
                self.ring,
                self.templated,
                self.enumerated,
                self.tabled,
                self.swapped,
                self.static_call,
                self.reference,
                self.renamed,
                self.place_given,
                self.mixed,
                self.listed,
                self.lambda_over,
                self.each,
                self.word,
            )
        )(scope)

    def small(self, scope: Scope, kind: str = "int") -> str:
        """A small number of a type."""
        return f"({self.expressions.number(scope, kind, 1)}) % 50"

    def pair(self, scope: Scope) -> Lines:
        """A struct by value: made, copied, changed, compared and read."""
        name, copy = self.fresh("q"), self.fresh("q")
        lines = [f"Pair {name}{{(int)({self.small(scope)}), (long)({self.small(scope, 'long')})}};"]
        lines += [f"Pair {copy} = {self.random.choice((name, f'{name}.plus(Pair())', f'{name} - Pair{{3, 4}}'))};"]
        lines += [
            self.random.choice((f"{copy} += 3;", f"{copy}.a++;", f"{name} = {copy};", f"{copy} = {copy}.plus({name});"))
        ]
        result = self.fresh("v")
        scope.numbers.append(Variable(result, "long"))
        read = self.random.choice(
            (f"{name}.sum() - {copy}.b", f"({name} == {copy} ? {name}.a : {copy}.a)", f"{copy}.plus({name}).sum()")
        )
        return lines + [f"long {result} = {read};"]

    def ring(self, scope: Scope) -> Lines:
        """An instance of a class template, shared by the program."""
        return [f"ring.push({self.small(scope)});", 'printf("ring %d\\n", ring.sum());'][: self.random.randint(1, 2)]

    def templated(self, scope: Scope) -> Lines:
        """A function template and a macro."""
        name, kind = self.fresh("v"), self.random.choice(("int", "long"))
        value = f"larger<{kind}>({self.small(scope, kind)}, {self.small(scope, kind)})"
        scope.numbers.append(Variable(name, kind))
        return [f"{kind} {name} = {self.random.choice((value, f'TWICE({value})', f'{value} * Scale'))};"]

    def enumerated(self, scope: Scope) -> Lines:
        """Enums with and without a scope of their own."""
        name, mode = self.fresh("h"), self.fresh("m")
        condition = self.expressions.condition(scope)
        return [
            f"Hue {name} = {condition} ? Green : Blue;",
            f"Mode {mode} = {name} == Green ? Mode::On : Mode::Off;",
            f'std::cout << {name} << " " << static_cast<int>({mode}) << "\\n";',
        ]

    def tabled(self, scope: Scope) -> Lines:
        """An array of arrays."""
        row, column = self.expressions.index(scope, 3), self.expressions.index(scope, 2)
        put = f"table[{row}][{column}] = {self.small(scope)};"
        read = self.fresh("v")
        scope.numbers.append(Variable(read, "int"))
        return [put, f"int {read} = table[{self.random.randrange(3)}][1] + Width;"]

    def swapped(self, scope: Scope) -> Lines:
        """References to two locals."""
        first, second = self.fresh("v"), self.fresh("v")
        call = self.random.choice(("swap_them", "std::swap"))
        lines = [f"long {first} = {self.small(scope, 'long')}, {second} = Scale;", f"{call}({first}, {second});"]
        scope.numbers += [Variable(first, "long"), Variable(second, "long")]
        return lines

    def static_call(self, scope: Scope) -> Lines:
        """A local that lives as long as the program."""
        name = self.fresh("v")
        scope.numbers.append(Variable(name, "int"))
        return [f"int {name} = counted();"]

    def reference(self, scope: Scope) -> Lines:
        """A reference to an object behind a pointer, or a plain block where there is none."""
        if not scope.pointers or not scope.numbers:
            return ["{", *indented(self.block(scope, 2, 0)), "}"]
        pointer, alias = self.random.choice(scope.pointers), self.fresh("p")
        return [f"{pointer.to} *{alias} = {pointer.text};", f'printf("%d\\n", {alias} == {pointer.text});']

    def renamed(self, scope: Scope) -> Lines:
        """A reference to a number, through which it is changed."""
        places = [it for it in scope.numbers if it.writable and it.type in ("int", "long", "unsigned", "short")]
        if not places:
            return self.static_call(scope)
        place, name = self.random.choice(places), self.fresh("r")
        scope.numbers.append(Variable(name, place.type))
        put = self.random.choice((f"{name} -= {self.random.randrange(1, 99)};", f"{name} = {self.literal(place)};"))
        return [f"{place.type} &{name} = {place.text};", put]

    def literal(self, place: Variable) -> str:
        """A literal for a place."""
        return self.expressions.literal(place.type)

    def place_given(self, scope: Scope) -> Lines:
        """A function whose result is a place, and one whose result is a place that can only be read."""
        name, read = self.fresh("q"), self.fresh("v")
        put = self.random.choice((f"{name}.tail() = {self.small(scope)};", f"{name}.tail() -= {self.small(scope)};"))
        scope.numbers.append(Variable(read, "long"))
        value = self.random.choice((f"{name}.tail() >> 2", f"{name}.head() + {name}.b", f"{name}.b / 3"))
        return [f"Pair {name};", put, f"long {read} = {value};"]

    def mixed(self, scope: Scope) -> Lines:
        """Numbers of 64 bits without sign, which wrap."""
        name, read = self.fresh("u"), self.fresh("v")
        lines = [f"unsigned long {name} = mix((unsigned long)({self.expressions.number(scope, 'long', 1)}));"]
        lines += [self.random.choice((f"{name} += {name} >> 7;", f"{name} -= 5;", f"{name} = {name} * 31 + 7;", ";"))]
        value = self.random.choice(
            (f"{name} % 1000", f"{name} / 3 % 97", f"{name} >> 50", f"{name} > 9223372036854775808ul", f"{name} & 255")
        )
        scope.numbers.append(Variable(read, "long"))
        return [*lines, f"long {read} = (long)({value});", f'printf("%lu %ld\\n", {name}, {read});']

    def listed(self, scope: Scope) -> Lines:
        """A vector of structs, which grows, is copied from and is changed in place."""
        name, read = self.fresh("q"), self.fresh("v")
        lines = [f"if (pairs.size() < 9) pairs.push_back(Pair{{(int)({self.small(scope)}), {self.small(scope)}}});"]
        lines += [f"Pair {name} = pairs.back();", f"{name}.a++;", "pairs.back() += 2;"]
        lines += [f"long {read} = pairs.back().a * 3 - {name}.a + pairs[0].b;"]
        scope.numbers.append(Variable(read, "long"))
        return lines + [self.random.choice((";", f"if (pairs.size() > 5) pairs.pop_back(), pairs[0] = {name};"))]

    def lambda_over(self, scope: Scope) -> Lines:
        """A lambda that changes a local, called twice."""
        name, first, second = self.fresh("f"), self.fresh("v"), self.fresh("v")
        capture = self.random.choice(("&", "=", f"&{first}"))
        change = f"{first} += x; return {first} - 3;" if capture != "=" else f"return {first} * 2 - x;"
        lines = [f"int {first} = {self.small(scope)};", f"auto {name} = [{capture}](int x) {{ {change} }};"]
        lines += [f"int {second} = {name}({self.small(scope)});", f"{second} -= {name}(4);"]
        scope.numbers += [Variable(first, "int"), Variable(second, "int")]
        return lines

    def each(self, scope: Scope) -> Lines:
        """A loop over all items, which are changed or summed."""
        name, sum_ = self.fresh("e"), self.fresh("v")
        items = self.random.choice([it.text for it in scope.items if it.type in ("int", "long")] or ["ring.item"])
        if self.random.random() < 0.4:
            return [f"for (auto &{name} : {items}) {name} = ({name} * 3 - 5) % 1009;"]
        scope.numbers.append(Variable(sum_, "long"))
        return [f"long {sum_} = 0;", f"for (const auto &{name} : {items}) {sum_} += {name} % 1009 >> 1;"]

    def word(self, scope: Scope) -> Lines:
        """A literal string that is chosen, printed, and looked at."""
        name = self.fresh("w")
        condition = self.expressions.condition(scope)
        shown = self.random.choice((f'printf("%s %c\\n", {name}, {name}[0]);', f'std::cout << {name} << "\\n";'))
        return [f'const char *{name} = {condition} ? "one" : "three";', shown]
