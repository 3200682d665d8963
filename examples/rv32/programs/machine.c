/* An interpreter of the language of eight commands, > < + - . , [ ], with two programs. */
#include "console.h"

static u8 tape[256];
static unsigned short partner[512];

/* Runs a program; the answer is 0, or 1 where a bracket has no partner. */
static int interpret(const char *program) {
  unsigned short open[16];
  int opened = 0;
  u32 at = 0;
  for (int k = 0; k < 256; k++) tape[k] = 0;
  for (int k = 0; program[k]; k++) {
    if (program[k] == '[') open[opened++] = (unsigned short)k;
    if (program[k] == ']') {
      if (!opened) return 1;
      partner[k] = open[--opened];
      partner[partner[k]] = (unsigned short)k;
    }
  }
  if (opened) return 1;
  for (int k = 0; program[k]; k++) switch (program[k]) {
      case '>': at++; break;
      case '<': at--; break;
      case '+': tape[at]++; break;
      case '-': tape[at]--; break;
      case '.': put((char)tape[at]); break;
      case '[': if (!tape[at]) k = partner[k]; break;
      case ']': if (tape[at]) k = partner[k]; break;
      default: break;
    }
  return 0;
}

int main(void) {
  static const char hello[] = "++++++++[>++++[>++>+++>+++>+<<<<-]>+>+>->>+[<]<-]>>.>---.+++++++..+++.>>.<-.<.+++.------.--------.>>+.>++.";
  static const char letters[] = "++++++++[>++++++++<-]>+<+++++[>>+++++<<-]>>+[<.+>-]++++++++++.";
  if (interpret(hello)) return 1;
  if (interpret(letters)) return 2;
  return interpret("[") == 1 && interpret("]") == 1 ? 0 : 3;
}
