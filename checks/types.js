// Reads a list of programs as JSON and writes for each what TypeScript's checker says of it beside a declaration file: a list of messages.
// usage: node checks/types.js DECLARATIONS < PROGRAMS
const ts = require("typescript")
const fs = require("fs")

const options = { noEmit: true, strict: true, strictNullChecks: false, noLib: true, target: ts.ScriptTarget.ES5, types: [] }
const board = ts.createSourceFile("board.d.ts", fs.readFileSync(process.argv[2], "utf8"), options.target, true)

const said = JSON.parse(fs.readFileSync(0, "utf8")).map(text => {
    const file = ts.createSourceFile("p.ts", text, options.target, true)
    const host = {
        getSourceFile: name => ({ "board.d.ts": board, "p.ts": file }[name]),
        fileExists: name => name === "board.d.ts" || name === "p.ts",
        readFile: () => undefined,
        writeFile: () => {},
        getDefaultLibFileName: () => "lib.d.ts",
        getCurrentDirectory: () => "",
        getCanonicalFileName: name => name,
        useCaseSensitiveFileNames: () => true,
        getNewLine: () => "\n",
    }
    const program = ts.createProgram(["board.d.ts", "p.ts"], options, host)
    return ts.getPreEmitDiagnostics(program).map(it => ts.flattenDiagnosticMessageText(it.messageText, " "))
})
console.log(JSON.stringify(said))
