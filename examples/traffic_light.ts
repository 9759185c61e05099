// A traffic light on pins 0 (red), 1 (yellow) and 2 (green). Whoever presses A wants to cross: the light turns red for two seconds.
class Light {
    red = DigitalPin.P0
    yellow = DigitalPin.P1
    green = DigitalPin.P2

    set(red: number, yellow: number, green: number): void {
        pins.digitalWritePin(this.red, red)
        pins.digitalWritePin(this.yellow, yellow)
        pins.digitalWritePin(this.green, green)
    }
}

const light = new Light()
light.set(0, 0, 1)
input.onButtonPressed(Button.A, () => {
    light.set(0, 1, 0)
    basic.pause(500)
    light.set(1, 0, 0)
    basic.pause(2000)
    light.set(1, 1, 0)
    basic.pause(500)
    light.set(0, 0, 1)
})
