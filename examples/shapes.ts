// Classes: each shape draws itself in its own way, and a list holds shapes of every kind.
class Shape {
    x: number
    y: number
    constructor(x: number, y: number) {
        this.x = x
        this.y = y
    }
    draw(): void { led.plot(this.x, this.y) }
    size(): number { return 1 }
}

class Line extends Shape {
    length: number
    constructor(x: number, y: number, length: number) {
        super(x, y)
        this.length = length
    }
    draw(): void {
        for (let i = 0; i < this.length; i++) {
            led.plot(this.x + i, this.y)
        }
    }
    size(): number { return this.length }
}

class Square extends Line {
    draw(): void {
        for (let row = 0; row < this.length; row++) {
            super.draw()
            this.y += 1
        }
    }
    size(): number { return this.length * this.length }
}

const shapes: Shape[] = []
shapes.push(new Shape(4, 0))
shapes.push(new Line(0, 4, 5))
shapes.push(new Square(1, 1, 2))

let lights = 0
for (const shape of shapes) {
    shape.draw()
    lights += shape.size()
    basic.pause(100)
}
serial.writeNumber(lights)
