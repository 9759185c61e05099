function sieve(a: number[], n: number): number {
    let k = 0
    for (let i = 2; i < n; i++) {
        if (a[i] == 0) {
            k += 1
            for (let j = i + i; j < n; j += i) { a[j] = 1 }
        }
    }
    return k
}
let xs: number[] = []
for (let i = 0; i < 200; i++) { xs.push(0) }
serial.writeNumber(sieve(xs, 200))
