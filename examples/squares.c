int looped(int n) {
    int sum = 0;
    int i = 1;
    while (i <= n) {
        sum = sum + i * i;
        i = i + 1;
    }
    return 6 * sum;
}

int closed(int n) {
    if (n <= 0) return 0;
    return n * (n + 1) * (2 * n + 1);
}
