class Counter {
    n: number = 0
    step: number = 1
    add(): void { this.n += this.step }
    twice(k: number): number { return k * 2 + this.n }
}
let c = new Counter()
for (let i = 0; i < 200; i++) {
    c.add()
    if (c.n * 7 == 0 || c.n > 4) { c.step = c.twice(i) & 3 }
}
serial.writeNumber(c.n)
