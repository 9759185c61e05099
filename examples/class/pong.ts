// Holds each number that comes by radio for 100 ms, with a light on, and sends the next one.
control.onEvent(200, 0, function () {
    let ball = control.eventValue()
    led.plot(2, 2)
    basic.pause(100)
    led.unplot(2, 2)
    radio.sendNumber(ball + 1)
})
