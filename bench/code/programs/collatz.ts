function steps(n: number): number {
    let k = 0
    while (n != 1) {
        if ((n & 1) == 0) { n = n >> 1 } else { n = 3 * n + 1 }
        k += 1
    }
    return k
}
let m = 0
for (let i = 1; i < 60; i++) { m += steps(i) }
serial.writeNumber(m)
