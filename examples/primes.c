/* Two tests for primes that look for a divisor up to the square root. */
int prime(int n) {
    if (n < 2)
        return 0;
    for (int i = 2; i * i <= n; i++)
        if (n % i == 0)
            return 0;
    return 1;
}

int check(int n) {
    if (n < 2)
        return 0;
    int d = 2;
    while (d * d <= n) {
        if (n % d == 0)
            return 0;
        d = d + 1;
    }
    return 1;
}
