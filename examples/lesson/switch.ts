input.onButtonPressed(Button.A, function () {
    radio.sendNumber(1)
})
