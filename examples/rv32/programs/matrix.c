/* The sum of a product of two matrices of 16 rows and columns, and quotients of its corners. */
#include "console.h"

#define N 16

static int a[N][N], b[N][N], c[N][N];

static void put_signed(int number) {
  if (number < 0) put('-');
  put_number(number < 0 ? -(u32)number : (u32)number);
}

int main(void) {
  int sum = 0;
  for (int i = 0; i < N; i++)
    for (int j = 0; j < N; j++) {
      a[i][j] = i * 7 - j * 5 + 3;
      b[i][j] = (i ^ j) - 6;
    }
  for (int i = 0; i < N; i++)
    for (int j = 0; j < N; j++) {
      for (int k = 0; k < N; k++) c[i][j] += a[i][k] * b[k][j];
      sum += c[i][j];
    }
  put_text("sum ");
  put_signed(sum);
  put_text("\ncorners ");
  put_signed(c[0][0]);
  put(' ');
  put_signed(c[0][N - 1]);
  put(' ');
  put_signed(c[N - 1][0]);
  put(' ');
  put_signed(c[N - 1][N - 1]);
  put_text("\nquotient ");
  put_signed(c[0][0] / c[0][N - 1]);
  put_text(" rest ");
  put_signed(c[0][0] % c[0][N - 1]);
  put('\n');
  return 0;
}
