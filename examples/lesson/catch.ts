let x = 0
let score = 0

basic.forever(function () {
    led.unplot(x, 2)
    x = (x + 1) % 5
    led.plot(x, 2)
    basic.pause(200)
})

input.onButtonPressed(Button.A, function () {
    if (x == 2) {
        score++
    } else {
        score = 0
    }
    serial.writeNumber(score)
    serial.writeLine(" points")
})
