int twice(int x) {
    return 2 * x;
}

int same(int x) {
    return x;
}
