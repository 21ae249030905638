/* Whether a is less than b, and the same by a difference, which leaves the range of 32-bit
   integers where one is large and the other negative. */

int less(int a, int b) {
  return a < b;
}

int minus(int a, int b) {
  return a - b < 0;
}
