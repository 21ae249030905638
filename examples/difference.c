int squares(int a, int b) {
    return a * a - b * b;
}

int factors(int a, int b) {
    return (a + b) * (a - b);
}
