let x = 2

function walk(by: number): void {
    led.unplot(x, 2)
    x = Math.max(0, Math.min(4, x + by))
    led.plot(x, 2)
}

input.onButtonPressed(Button.A, function () { walk(-1) })
input.onButtonPressed(Button.B, function () { walk(1) })
led.plot(x, 2)
