basic.forever(function () {
    basic.showLeds(`
        .....
        .#.#.
        .###.
        ..#..
        .....
    `)
    basic.showLeds(`
        .#.#.
        #####
        #####
        .###.
        ..#..
    `)
})
