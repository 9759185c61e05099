/// <reference no-default-lib="true"/>
// What a program of the board can use, for editors and for TypeScript's own checker:
//     tsc --noEmit --strict --strictNullChecks false --noLib --target es5 examples/board.d.ts program.ts
// For programs in this folder tsconfig.json says so: `tsc -p examples`.
// TypeScript takes more than the board does: `sts check program.ts` decides what runs on it. Numbers are whole numbers of 32 bits, and
// null is a value of each class, each array and of string.

/** The display of 5 by 5 lights, and waiting. */
declare namespace basic {
    /** Lets others run for a number of milliseconds, one at least. */
    function pause(ms: number): void
    /** Calls a function again and again, with a pause of 20 ms behind each call. */
    function forever(handler: () => void): void
    /** Shows a picture, 25 of `#` and `.` written in the program, for 400 ms. */
    function showLeds(picture: string): void
    /** Shows a number, digit by digit, 400 ms each. */
    function showNumber(n: number): void
    /** Shows a text, letter by letter, 400 ms each. */
    function showString(text: string): void
    /** Turns all lights off. */
    function clearScreen(): void
}

/** Single lights: columns and rows 0 to 4 from the top left. Others do nothing. */
declare namespace led {
    function plot(x: number, y: number): void
    function unplot(x: number, y: number): void
    function toggle(x: number, y: number): void
}

/** Buttons and the clock. */
declare namespace input {
    /** Calls a function when a button was pressed for less than a second. */
    function onButtonPressed(button: number, handler: () => void): void
    /** Whether a button is down. */
    function buttonIsPressed(button: number): boolean
    /** Milliseconds since the start. */
    function runningTime(): number
}

/** Events and activities. For a listener or waiter, source 0 is any source and value 0 any value. */
declare namespace control {
    /** Starts a function beside the program. */
    function inBackground(handler: () => void): void
    /** Calls a function for each event of a source and a value. While it is busy, ten events wait. */
    function onEvent(source: number, value: number, handler: () => void): void
    /** The same with another rule for events that come while the function is busy: one of EventFlags. */
    function onEventFlags(source: number, value: number, handler: () => void, flags: number): void
    /** Puts an event into the queue. */
    function raiseEvent(source: number, value: number): void
    /** Calls the listeners of an event at once, before what follows. */
    function raiseNow(source: number, value: number): void
    /** Waits until an event comes. */
    function waitForEvent(source: number, value: number): void
    /** The value of the event that started this activity, or woke it last; 0 where there was none. */
    function eventValue(): number
    /** Stops the whole program with a code. */
    function panic(code: number): void
}

/** The serial line. */
declare namespace serial {
    function writeNumber(n: number): void
    function writeString(text: string): void
    /** The text, and then the bytes 13 and 10. */
    function writeLine(text: string): void
}

declare namespace pins {
    /** Sets a pin, 0 to 20: low for 0, high for any other number. */
    function digitalWritePin(pin: number, value: number): void
}

declare namespace radio {
    function sendNumber(n: number): void
}

declare namespace Math {
    function abs(n: number): number
    function min(a: number, b: number): number
    function max(a: number, b: number): number
}

declare namespace Button {
    const A: number
    const B: number
}

declare namespace DigitalPin {
    const P0: number
    const P1: number
    const P2: number
}

/** What a busy listener does with a further event: it runs once more at once, or later, or not at all. */
declare namespace EventFlags {
    const Reentrant: number
    const QueueIfBusy: number
    const DropIfBusy: number
}

/** A list. An index that isn't there stops the program with panic 104. */
interface Array<T> {
    readonly length: number
    [index: number]: T
    push(item: T): void
    pop(): T
}

// What the checker itself wants to know of.
interface Boolean {}
interface CallableFunction extends Function {}
interface Function {
    readonly " is called": true
}
interface IArguments {}
interface NewableFunction extends Function {}
interface Number {}
interface Object {}
interface RegExp {}
interface String {}
