// Shows a greeting letter by letter, then a heart, and then a dark display.
basic.showString("HI!")
basic.showLeds(`
    . # . # .
    # # # # #
    # # # # #
    . # # # .
    . . # . .
`)
basic.clearScreen()
serial.writeLine("done")
