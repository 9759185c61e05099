let s = 0
for (let i = 0; i < 1000; i++) { s = (s * 31 + i) & 65535 }
serial.writeNumber(s)
