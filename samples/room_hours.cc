// Groups book rooms by the hour: a booking adds to each item of a range, and ranges that overlap commute.
class Room {
public:
  long booked[12];
  long bookings;
  long opens;
  void start(long hour) {
    opens = hour;
  }
  // A sweep: a loop that only adds one thing to the items of a range, whatever its bounds are.
  void book(long from, long to, long people) {
    for (long h = from; h < to; h++) booked[h] += people;
    bookings += 1;
  }
  void leave(long to, long people) {
    for (long h = opens; h < to; h++) booked[h] -= people;
  }
  // A sum at one item commutes with them.
  void visit(long hour) {
    booked[hour] += 1;
  }
  // Putting doesn't change places with adding, and this loop is no sweep.
  void close(long from) {
    for (long h = from; h < 12; h++) booked[h] = 0;
  }
  long busiest() {
    long best = 0;
    for (long h = 1; h < 12; h++) {
      if (booked[best] < booked[h]) best = h;
    }
    return best;
  }
};
class Group {
public:
  long people;
  long first;
  long hours;
  Room *room;
  void start(long p, long f, long h, Room *r) {
    people = p;
    first = f;
    hours = h;
    room = r;
  }
  void meet() {
    room->book(first, first + hours, people);
    room->visit(first);
  }
  // Those that came before two o'clock leave half of their people out.
  void shrink() {
    if (first < 2) room->leave(2, people / 2);
  }
};
class House {
public:
  Room *rooms[2];
  Group *groups[6];
  void make() {
    for (long i = 0; i < 2; i++) rooms[i] = new Room();
    for (long i = 0; i < 6; i++) groups[i] = new Group();
  }
  void fill() {
    for (long i = 0; i < 2; i++) rooms[i]->start(i);
    for (long i = 0; i < 6; i++) groups[i]->start(2 + i, i, 3 + i % 3, rooms[i % 2]);
  }
  void meet() {
    for (long i = 0; i < 6; i++) groups[i]->meet();
  }
  void shrink() {
    for (long i = 0; i < 6; i++) groups[i]->shrink();
  }
};
int main() {
  House *h = new House();
  h->make();
  h->fill();
  h->meet();
  h->shrink();
  print(h->rooms[0]->busiest());
  print(h->rooms[1]->busiest());
  h->rooms[1]->close(9);
  return 0;
}
