// Sends 1 when button A is pressed. Writes each number that comes back, and sends the next one, up to 6.
input.onButtonPressed(Button.A, function () {
    radio.sendNumber(1)
})
control.onEvent(200, 0, function () {
    let ball = control.eventValue()
    serial.writeNumber(ball)
    if (ball < 6) {
        radio.sendNumber(ball + 1)
    }
})
