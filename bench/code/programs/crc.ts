function crc(n: number): number {
    let c = -1
    for (let i = 0; i < n; i++) {
        c = c ^ i
        for (let b = 0; b < 8; b++) {
            if ((c & 1) != 0) { c = (c >>> 1) ^ 0xEDB88320 } else { c = c >>> 1 }
        }
    }
    return ~c
}
serial.writeNumber(crc(64))
