// Sends back each number that comes by radio, and writes it if it is a new one.
let last = 0

control.onEvent(200, 0, function () {
    let n = control.eventValue()
    if (n != last) {
        last = n
        serial.writeNumber(n)
    }
    radio.sendNumber(n)
})
