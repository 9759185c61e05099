function fib(n: number): number {
    if (n < 2) { return n }
    return fib(n - 1) + fib(n - 2)
}
serial.writeNumber(fib(12))
