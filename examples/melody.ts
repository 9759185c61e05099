// A melody as an array of notes, each a pitch and a length in beats, written to the serial line as it is played.
const notes = [60, 2, 62, 2, 64, 4, 62, 1, 60, 1]
let beat = 50
let played: number[] = []

function play(pitch: number, beats: number): void {
    serial.writeString("note ")
    serial.writeNumber(pitch)
    serial.writeString("\n")
    played.push(pitch)
    basic.pause(beats * beat)
}

for (let i = 0; i < notes.length; i += 2) {
    play(notes[i], notes[i + 1])
}
let highest = 0
for (const pitch of played) {
    highest = Math.max(highest, pitch)
}
serial.writeNumber(highest)
while (played.length > 0) {
    played.pop()
}
