// Three lights blink side by side, each at its own pace, while the main program counts on.
function blink(x: number, ms: number): void {
    while (true) {
        led.toggle(x, 0)
        basic.pause(ms)
    }
}

control.inBackground(() => { blink(0, 100) })
control.inBackground(() => { blink(2, 150) })
control.inBackground(() => { blink(4, 250) })
for (let second = 0; second < 2; second++) {
    serial.writeNumber(second)
    basic.pause(200)
}
