control.onEvent(200, 0, function () {
    led.toggle(2, 2)
})
