function sum(a: number[]): number {
    let s = 0
    for (let i = 0; i < a.length; i++) { s += a[i] }
    return s
}
function sort(a: number[]): void {
    for (let i = 0; i < a.length; i++) {
        for (let j = 0; j + 1 < a.length - i; j++) {
            if (a[j] > a[j + 1]) {
                let t = a[j]
                a[j] = a[j + 1]
                a[j + 1] = t
            }
        }
    }
}
let xs = [5, 3, 9, 1, 7, 2, 8, 6, 4, 0]
sort(xs)
serial.writeNumber(sum(xs))
