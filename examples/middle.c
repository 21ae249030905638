/* The middle of two integers, 0 <= a <= b. With --int32 the first overflows where a + b does, and
   the second never. To show that: 0 times what a function returns is 0 where it returns an integer,
   and an error where it has one. */

int sum(int a, int b) {
  return (a + b) / 2;
}

int gap(int a, int b) {
  return a + (b - a) / 2;
}

int checked_sum(int a, int b) {
  return 0 * sum(a, b);
}

int checked_gap(int a, int b) {
  return 0 * gap(a, b);
}

int zero(int a, int b) {
  return 0;
}
