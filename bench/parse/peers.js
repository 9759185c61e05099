// Random programs of the language and the same with a token changed, put to `sts check` and to TypeScript's own parser.
// - A program that was made by the grammar is spelled.
// - What TypeScript's parser refuses isn't spelled, but for what docs/DECISIONS.md lists: `=>` on a new line, an arrow as an operand or
//   called, and a declaration as the body of a loop or the branch of an `if`.
// usage: node peers.js PROGRAM HOW_MANY SEED
const ts = require("/usr/share/nodejs/typescript/lib/typescript.js");
const { spawnSync } = require("child_process");
const fs = require("fs");
const os = require("os");
const path = require("path");

const [program, many, seed] = [process.argv[2], Number(process.argv[3]), Number(process.argv[4])];
let state = seed >>> 0;
const random = (n) => {
    state = (Math.imul(state, 1664525) + 1013904223) >>> 0;
    return Math.floor((state / 4294967296) * n);
};
const pick = (...all) => all[random(all.length)];
const list = (make, most) => Array.from({ length: random(most + 1) }, make).flatMap((one, i) => (i ? [",", ...one] : one));

const name = () => pick("a", "b", "c", "of", "x1", "number");
const type = () => [pick("number", "boolean", "string", "C"), ...Array.from({ length: random(2) }, () => "[]")];
const param = () => [name(), ...(random(2) ? [":", ...type()] : [])];
const result = () => (random(2) ? [":", ...(random(2) ? type() : ["void"])] : []);
const heading = () => ["(", ...list(param, 2), ")", ...result()];
const block = (depth, f, l) => ["{", ...statements(depth - 1, f, l), "}"];

function primary(depth) {
    const kind = depth > 0 ? random(14) : random(6);
    switch (kind) {
        case 0: return [pick("0", "7", "0xFF", "12")];
        case 1: return [pick('"t"', "'s'", "`q`")];
        case 2: return [pick("true", "false", "null", "this")];
        case 6: return ["(", ...expression(depth - 1), ")"];
        case 7: return ["[", ...list(() => expression(depth - 1), 3), "]"];
        case 8: return ["new", "C", "(", ...list(() => expression(depth - 1), 2), ")"];
        case 9: return ["function", ...heading(), ...block(depth, true, false)];
        default: return [name()];
    }
}
const chain = (depth) => {
    let read = primary(depth);
    for (let i = random(3); i > 0; i--) {
        const part = random(3);
        if (part === 0) read = [...read, ".", pick("a", "b", "class", "if")];
        else if (part === 1) read = [...read, "[", ...expression(depth - 1), "]"];
        else read = [...read, "(", ...list(() => expression(depth - 1), 2), ")"];
    }
    return read;
};
const target = (depth) => [name(), ...(random(2) ? [".", "b"] : []), ...(random(3) ? [] : ["[", ...expression(depth - 1), "]"])];
const infix = ["||", "&&", "|", "^", "&", "==", "===", "!=", "!==", "<", ">", "<=", ">=", "<<", ">>", ">>>", "+", "-", "*", "/", "%"];
const assign = ["=", "+=", "-=", "*=", "/=", "%=", "&=", "|=", "^=", "<<=", ">>=", ">>>="];
function operand(depth) {
    const kind = random(6);
    if (kind === 0) return [pick("-", "+", "!", "~"), ...operand(depth - 1)];
    if (kind === 1) return [pick("++", "--"), ...target(depth - 1)];
    if (kind === 2) return [...target(depth - 1), pick("++", "--")];
    return chain(depth);
}
function expression(depth) {
    if (depth <= 0) return primary(0);
    const kind = random(7);
    if (kind === 0) return [...target(depth - 1), pick(...assign), ...expression(depth - 1)];
    if (kind === 1) return [...operand(depth - 1), "?", ...operand(depth - 1), ":", ...operand(depth - 1)];
    if (kind === 2) return [...heading(), "=>", ...block(depth, true, false)];
    let read = operand(depth - 1);
    for (let i = random(3); i > 0; i--) read = [...read, pick(...infix), ...operand(depth - 1)];
    return read;
}
const declaration = (depth) =>
    random(2)
        ? ["let", name(), ...(random(2) ? [":", ...type()] : []), ...(random(2) ? ["=", ...expression(depth)] : [])]
        : ["const", name(), ...(random(2) ? [":", ...type()] : []), "=", ...expression(depth)];
const plain = (depth) => {
    const read = expression(depth);
    return ["{", "function", "class"].includes(read[0]) ? ["(", ...read, ")"] : read;
};
function statement(depth, f, l) {
    const kind = depth > 0 ? random(12) : 11;
    const body = () => {
        const read = statement(depth - 1, f, true);
        return ["let", "const"].includes(read[0]) ? ["{", ...read, "}"] : read;
    };
    switch (kind) {
        case 0: return block(depth, f, l);
        case 1: return [...declaration(depth - 1), ";"];
        case 2: return ["if", "(", ...expression(depth - 1), ")", ...block(depth, f, l), ...(random(2) ? ["else", ...block(depth, f, l)] : [])];
        case 3: return ["while", "(", ...expression(depth - 1), ")", ...body()];
        case 4: return ["do", ...body(), "while", "(", ...expression(depth - 1), ")", ";"];
        case 5: return ["for", "(", ...(random(2) ? declaration(depth - 1).filter((t) => t !== "") : plain(depth - 1)), ";", ...(random(2) ? expression(depth - 1) : []), ";", ...(random(2) ? expression(depth - 1) : []), ")", ...body()];
        case 6: return ["for", "(", pick("let", "const"), "x", "of", ...operand(depth - 1), ")", ...body()];
        case 7: return f ? ["return", ...(random(2) ? expression(depth - 1) : []), ";"] : [";"];
        case 8: return l ? [pick("break", "continue"), ";"] : [";"];
        default: return [...plain(depth - 1), ";"];
    }
}
function statements(depth, f, l) {
    return Array.from({ length: random(3) }, () => statement(depth, f, l)).flat();
}
function item(depth) {
    const kind = random(5);
    if (kind === 0) {
        const members = Array.from({ length: random(4) }, () => {
            const mark = random(3) ? [] : [pick("public", "private", "protected")];
            if (random(2)) return [...mark, pick("a", "b", "if"), ...(random(2) ? [":", ...type()] : []), ...(random(2) ? ["=", ...expression(depth - 1)] : []), ";"];
            return [...mark, pick("m", "n", "class"), ...heading(), ...block(depth, true, false)];
        }).flat();
        return ["class", "C", ...(random(2) ? ["extends", "B"] : []), "{", ...members, "}"];
    }
    if (kind === 1) return ["function", "f", ...heading(), ...block(depth, true, false)];
    return statement(depth, false, false);
}
const folder = fs.mkdtempSync(path.join(os.tmpdir(), "peers-"));
const file = path.join(folder, "p.ts");
const check = (text) => {
    fs.writeFileSync(file, text);
    const ran = spawnSync(program, ["check", file], { encoding: "utf8" });
    return ran.stdout.trim();
};
// A text spells a program where it is accepted, or refused by a code of names, types and limits.
const spells = (said) => said === "accepted" || /^refused (8|9|1[0-5]) /.test(said);
const refuses = (text) => ts.createSourceFile("p.ts", text, ts.ScriptTarget.ES2020, true).parseDiagnostics.length > 0;
// A line may break before a token that can't begin a statement of its own, and behind `;`, `{`, `}` and `,`.
const lay = (tokens) => tokens.map((token, i) => token + (["{", "}", ";", ","].includes(token) && random(2) ? "\n" : " ")).join("");
let [spelled, changed, refused, wrong] = [0, 0, 0, 0];
for (let i = 0; i < many; i++) {
    const tokens = Array.from({ length: 1 + random(3) }, () => item(4)).flat();
    const text = lay(tokens);
    if (text.length > 60000) continue;
    const said = check(text);
    if (spells(said)) spelled++;
    else if (!said.startsWith("refused 7")) {
        wrong++;
        console.log(`made by the grammar, but ${said}:\n${text}\n`);
    }
    const other = tokens.slice();
    const at = random(other.length + 1);
    const change = random(3);
    if (change === 0) other.splice(at, 1);
    else if (change === 1) other.splice(at, 0, pick(...infix, ...assign, "(", ")", "{", "}", "[", "]", ";", ",", "a", "if", "else", "let", "=>", "++", "?", ":", "."));
    else if (at + 1 < other.length) [other[at], other[at + 1]] = [other[at + 1], other[at]];
    const broken = lay(other);
    changed++;
    if (refuses(broken)) {
        refused++;
        if (spells(check(broken)) && !/=>|\b(let|const)\b/.test(broken)) {
            wrong++;
            console.log(`refused by TypeScript, but spelled:\n${broken}\n`);
        }
    }
}
console.log(`${spelled} spelled; ${changed} with a token changed, ${refused} of them refused by TypeScript; ${wrong} wrong`);
fs.rmSync(folder, { recursive: true });
process.exit(wrong ? 1 : 0);
