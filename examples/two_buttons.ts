// A lamp for each button: it is on while its button is down. Both at once light the whole middle row.
function lamp(x: number, on: boolean): void {
    if (on) {
        led.plot(x, 2)
    } else {
        led.unplot(x, 2)
    }
}

basic.forever(() => {
    const a = input.buttonIsPressed(Button.A)
    const b = input.buttonIsPressed(Button.B)
    lamp(0, a)
    lamp(4, b)
    for (let x = 1; x < 4; x++) {
        lamp(x, a && b)
    }
})
