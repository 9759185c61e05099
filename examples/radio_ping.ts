// Sends a ping every half second, and answers each ping that comes with one number more. On the board's script, what comes by radio is
// an event of source 200 with the number as its value.
let sent = 0

control.onEvent(200, 0, () => {
    radio.sendNumber(control.eventValue() + 1)
})
control.inBackground(() => {
    while (sent < 3) {
        sent++
        radio.sendNumber(sent * 10)
        basic.pause(500)
    }
})
