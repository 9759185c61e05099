// Looks at button A again and again and never pauses: what a script does comes only while nobody has anything to do,
// so only what arrives between two instructions can end this.
let looks = 0
while (!input.buttonIsPressed(Button.A)) {
    looks += 1
}
serial.writeString("down")
while (input.buttonIsPressed(Button.A)) {
    looks += 1
}
serial.writeString("up")
