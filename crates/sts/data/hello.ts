serial.writeNumber(2147483647 + 1)
