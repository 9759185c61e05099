// Sends 1, 2 and 3 by radio, each again every 100 ms until the same number comes back, and writes it then.
let back = 0

control.onEvent(200, 0, function () {
    back = control.eventValue()
})
for (let n = 1; n <= 3; n++) {
    while (back != n) {
        radio.sendNumber(n)
        basic.pause(100)
    }
    serial.writeNumber(n)
}
