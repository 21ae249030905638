/* A routine, and the same routine after it was rewritten. */

int old_sum(int n, int total) {
  for (; n > 0; n--)
    total += 2 * n;
  return total;
}

int new_sum(int n, int total) {
  while (n >= 1) {
    total = total + n + n;
    n = n - 1;
  }
  return total;
}
