// A machine that runs one program: each instruction begins where the one before it ended, so nothing of it can run
// at the same time.
#include <cstdio>
#include <vector>

enum Code { PUT, ADD, MULTIPLY, REST, JUMP_IF_LESS, HALT };

struct Instruction {
  Code code;
  int to, from;
  long value;
};

class Machine {
  std::vector<Instruction> program;
  long registers[8] = {};
  long steps = 0;

public:
  void add(Code code, int to, int from, long value) { program.push_back(Instruction{code, to, from, value}); }

  void run() {
    size_t at = 0;
    while (program[at].code != HALT) {
      const Instruction &it = program[at++];
      steps++;
      switch (it.code) {
      case PUT: registers[it.to] = it.value; break;
      case ADD: registers[it.to] += registers[it.from] + it.value; break;
      case MULTIPLY: registers[it.to] *= registers[it.from]; break;
      case REST: registers[it.to] %= it.value; break;
      case JUMP_IF_LESS:
        if (registers[it.to] < registers[it.from]) at = static_cast<size_t>(it.value);
        break;
      case HALT: break;
      }
    }
  }

  void report() const {
    printf("%ld steps\n", steps);
    for (long value : registers) printf("%ld ", value);
    printf("\n");
  }
};

int main() {
  Machine machine;
  machine.add(PUT, 1, 0, 30000000);   // 0: how often
  machine.add(PUT, 2, 0, 48271);      // 1: a factor
  machine.add(PUT, 3, 0, 1);          // 2: what is multiplied
  machine.add(MULTIPLY, 3, 2, 0);     // 3: the loop begins
  machine.add(REST, 3, 0, 2147483647);
  machine.add(ADD, 4, 3, 0);
  machine.add(ADD, 0, 7, 1);
  machine.add(JUMP_IF_LESS, 0, 1, 3);
  machine.add(HALT, 0, 0, 0);
  machine.run();
  machine.report();
  return 0;
}
