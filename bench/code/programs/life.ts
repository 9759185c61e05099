function at(a: number[], x: number, y: number): number { return a[y * 5 + x] }
function life(a: number[], b: number[]): void {
    for (let y = 0; y < 5; y++) {
        for (let x = 0; x < 5; x++) {
            let n = 0
            for (let dy = -1; dy <= 1; dy++) {
                for (let dx = -1; dx <= 1; dx++) {
                    let u = x + dx
                    let v = y + dy
                    if (u >= 0 && u < 5 && v >= 0 && v < 5 && (dx != 0 || dy != 0)) { n += at(a, u, v) }
                }
            }
            if (n == 3 || (n == 2 && at(a, x, y) == 1)) { b[y * 5 + x] = 1 } else { b[y * 5 + x] = 0 }
        }
    }
}
let g = [0, 0, 1, 0, 0, 0, 0, 1, 0, 0, 0, 0, 1, 0, 0, 0, 0, 0, 0, 0, 0, 0, 0, 0, 0]
let h = [0, 0, 0, 0, 0, 0, 0, 0, 0, 0, 0, 0, 0, 0, 0, 0, 0, 0, 0, 0, 0, 0, 0, 0, 0]
for (let k = 0; k < 5; k++) {
    life(g, h)
    life(h, g)
}
let s = 0
for (let i = 0; i < 25; i++) { s = s * 2 + g[i] }
serial.writeNumber(s)
