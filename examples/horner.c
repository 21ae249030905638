int reference(int x, int a, int b, int c) {
    return a * x * x + b * x + c;
}

int horner(int t, int p, int q, int r) {
    return (p * t + q) * t + r;
}
