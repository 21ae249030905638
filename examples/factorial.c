/* The product of the numbers from 1 to n; it ends only where n is at least 0. */
int fact(int n) { if (n == 0) return 1; return n * fact(n - 1); }
