// Writes the trace of so many cycles, as firsim does: for Verilator, by the word N.
#include <cstdio>
#include <cstdlib>

#include "Vbench.h"
#include "verilated.h"

int main(int count, char** words) {
  VerilatedContext context;
  Vbench bench(&context);
  const long cycles = count > 1 ? std::atol(words[1]) : 0;
  std::puts("cycle out");
  for (long cycle = 0; cycle < cycles; ++cycle) {
    bench.clock = 0;
    bench.eval();
    std::printf("%ld %u\n", cycle, static_cast<unsigned>(bench.out));
    bench.clock = 1;
    bench.eval();
  }
  return 0;
}
