// One of the boards of a vote: button A is yes, button B is no, and the first press counts. Each vote goes to all others by radio. After two seconds the board writes how many were yes, and shows a tick where those are more.
let yes = 0
let no = 0
let voted = false

function count(vote: number): void {
    if (vote == 1) {
        yes++
    } else {
        no++
    }
}

function cast(vote: number): void {
    if (!voted) {
        voted = true
        count(vote)
        radio.sendNumber(vote)
    }
}

input.onButtonPressed(Button.A, function () { cast(1) })
input.onButtonPressed(Button.B, function () { cast(2) })
control.onEvent(200, 0, function () { count(control.eventValue()) })
basic.pause(2000)
serial.writeNumber(yes)
if (yes > no) {
    basic.showLeds(`
        .....
        ....#
        ...#.
        #.#..
        .#...
    `)
} else {
    basic.showLeds(`
        #...#
        .#.#.
        ..#..
        .#.#.
        #...#
    `)
}
