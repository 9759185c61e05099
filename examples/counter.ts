// Button A counts up, button B begins anew. The number is shown on the display and written to the serial line.
let count = 0

function show(): void {
    serial.writeNumber(count)
    serial.writeString("\n")
    basic.showNumber(count)
}

input.onButtonPressed(Button.A, function () {
    count += 1
    show()
})
input.onButtonPressed(Button.B, function () {
    count = 0
    show()
})
