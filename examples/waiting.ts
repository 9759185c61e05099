// A relay race: each runner waits for the one before. Events carry the baton; button A fires the starting shot.
const baton = 500

function runner(number: number, speed: number): void {
    control.waitForEvent(baton, number)
    serial.writeLine("go")
    basic.pause(speed)
    control.raiseEvent(baton, number + 1)
}

control.inBackground(() => { runner(1, 300) })
control.inBackground(() => { runner(2, 200) })
control.inBackground(() => {
    control.waitForEvent(baton, 3)
    serial.writeNumber(input.runningTime())
})
control.waitForEvent(Button.A, 1)
control.raiseEvent(baton, 1)
