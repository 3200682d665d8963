/* Says hello, and what 6 times 7 is. */
#include "console.h"

int main(void) {
  volatile u32 six = 6, seven = 7;
  put_text("hello, world\n");
  put_number(six);
  put_text(" times ");
  put_number(seven);
  put_text(" is ");
  put_number(six * seven);
  put('\n');
  return 0;
}
