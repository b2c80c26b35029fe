// A school: marks of students in courses, their averages and ranks, how hard each course is, and who gets a prize.
#include <cstdio>
#include <vector>

struct Course;

struct Student {
  int number;
  long average = 0;
  int passed = 0, rank = 0;
  bool honours = false;
  explicit Student(int n) : number(n) {}
};

struct Mark {
  Student *student;
  Course *course;
  int points;
};

struct Course {
  int hours;
  long sum = 0, count = 0;
  int most = 0, least = 100;
  std::vector<Mark *> marks;
  explicit Course(int h) : hours(h) {}
  long mean() const { return count > 0 ? sum / count : 0; }
};

static std::vector<Student *> students;
static std::vector<Course *> courses;
static std::vector<Mark *> marks;

static int next(int n) {
  static long state = 2024;
  state = (state * 16807) % 2147483647;
  return state % n;
}

static void enrol(int people, int subjects) {
  for (int i = 0; i < people; i++) students.push_back(new Student(i));
  for (int i = 0; i < subjects; i++) courses.push_back(new Course(2 + i % 4));
  for (auto s : students)
    for (auto c : courses)
      if (next(3)) {
        Mark *m = new Mark{s, c, 20 + next(81)};
        marks.push_back(m);
        c->marks.push_back(m);
      }
}

// Points that a course gives beyond what was earned, so that its mean is at least 60.
static void curve() {
  for (auto c : courses) {
    int extra = c->mean() < 60 ? 60 - c->mean() : 0;
    for (auto m : c->marks) {
      m->points += extra;
      if (m->points > 100) m->points = 100;
    }
  }
}

static void grade() {
  for (auto m : marks) {
    Course *c = m->course;
    c->sum += m->points;
    c->count++;
    if (m->points > c->most) c->most = m->points;
    if (m->points < c->least) c->least = m->points;
  }
}

static void average() {
  std::vector<long> hours(students.size(), 0);
  for (auto m : marks) {
    m->student->average += m->points * m->course->hours;
    hours[m->student->number] += m->course->hours;
    if (m->points >= 50) m->student->passed++;
  }
  for (auto s : students)
    if (hours[s->number] > 0) s->average = s->average / hours[s->number];
}

static void rank() {
  for (auto s : students) {
    int better = 0;
    for (auto other : students)
      if (other->average > s->average) better++;
    s->rank = better + 1;
    s->honours = s->rank <= 10 && s->passed > 5;
  }
}

int main() {
  enrol(90, 12);
  grade();
  curve();
  average();
  rank();
  int honoured = 0;
  for (auto s : students)
    if (s->honours) honoured++;
  Student *first = nullptr;
  for (auto s : students)
    if (first == nullptr || s->average > first->average) first = s;
  Course *hardest = courses[0];
  for (auto c : courses)
    if (c->mean() < hardest->mean()) hardest = c;
  printf("%d with honours, first is %d with %ld, hardest has %ld (%d to %d)\n", honoured, first->number, first->average,
         hardest->mean(), hardest->least, hardest->most);
  long check = 0;
  for (auto s : students) check = (check * 31 + s->average * 7 + s->rank) % 1000003;
  printf("%ld\n", check);
}
