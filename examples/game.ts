// A catching game: A and B move the paddle at the bottom, and a drop falls. Who catches it scores.
class Paddle {
    x: number = 2
    constructor () { led.plot(2, 4) }
    move(d: number): void {
        led.unplot(this.x, 4)
        this.x = Math.max(0, Math.min(4, this.x + d))
        led.plot(this.x, 4)
    }
}
let paddle = new Paddle()
let drops = [0, 3, 1, 4, 2]
let turn = 0
let score = 0
input.onButtonPressed(Button.A, function () { paddle.move(-1) })
input.onButtonPressed(Button.B, function () { paddle.move(1) })
basic.forever(function () {
    if (turn < 1) {
        let col = drops[turn]
        for (let row = 0; row < 4; row++) {
            led.plot(col, row)
            basic.pause(100)
            led.unplot(col, row)
        }
        if (paddle.x == col) { score += 1 }
        turn += 1
        basic.showNumber(score)
    }
})
