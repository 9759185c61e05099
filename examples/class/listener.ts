// Writes each number that comes by radio.
control.onEvent(200, 0, function () {
    serial.writeNumber(control.eventValue())
})
