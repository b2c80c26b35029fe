// A queue of 1,000 jobs by links: the first one works, and goes behind the last one until it is done, ten times.
class Job {
public:
  Job *next;
  long left;
  long turns;
  void begin(long work) { left = work; }
  void work() {
    left = left - 1;
    turns = turns + 1;
  }
  void link(Job *other) { next = other; }
};
class Queue {
public:
  Job *first;
  Job *last;
  long length;
  void put(Job *job) {
    job->link(nullptr);
    if (first == nullptr) first = job;
    else last->link(job);
    last = job;
    length++;
  }
  void take() {
    first = first->next;
    length--;
  }
};
class Jobs {
public:
  Job *at[1000];
  Queue *queue;
  long turns;
  void make() {
    queue = new Queue();
    for (long i = 0; i < 1000; i++) at[i] = new Job();
  }
  void fill() {
    for (long i = 0; i < 1000; i++) {
      at[i]->begin(1 + i % 60);
      queue->put(at[i]);
    }
  }
  void run() {
    while (queue->length > 0) {
      Job *job = queue->first;
      queue->take();
      job->work();
      turns++;
      if (job->left > 0) queue->put(job);
    }
  }
};
int main() {
  Jobs *jobs = new Jobs();
  jobs->make();
  for (long r = 0; r < 10; r++) {
    jobs->fill();
    jobs->run();
  }
  print(jobs->turns);
  print(jobs->at[999]->turns);
}
