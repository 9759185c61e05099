"""Manual pages of the commands, made from docs/COMMANDS.md."""
import re
import time

INSTALLED = {"show": "sts-show", "view": "sts-view", "judge": "sts-judge", "play": "sts-play"}  # where other packages have these names


def installed(name):
    """The name of a command where a release is installed."""
    return name if name == "sts" else INSTALLED.get(name, f"sts-{name}")


def sections(document):
    """The parts of a document that are about commands, by their names: what each is for, and the lines below its heading."""
    parts, name = {}, None
    for line in document.split("\n"):
        if found := re.match(r"## (\w+): (.*)", line):
            name = found[1]
            parts[name] = (found[2], [])
        elif line.startswith("## "):
            name = None
        elif name:
            parts[name][1].append(line)
    return parts


def escaped(text):
    """A text in which no sign is one of troff."""
    text = text.replace("\\", "\\e").replace("-", "\\-").replace("'", "\\(aq").replace("`", "\\(ga")
    return "\\&" + text if text.startswith(".") else text


def marked(text, command):
    """A line of a document in troff: what stands between backquotes in bold, links as their words. A command has its installed name where it begins what is bold."""
    text = re.sub(r"\[([^\]]*)\]\([^)]*\)", r"\1", text)
    parts = []
    for number, part in enumerate(text.split("`")):
        if number % 2:
            part = re.sub(rf"^(?:bin/)?{command}\b", installed(command), part)
            part = re.sub(r"\bbin/(\w+)", lambda found: installed(found[1]), part)
        parts.append(f"\\fB{escaped(part)}\\fR" if number % 2 else escaped(part))
    whole = "".join(parts)
    return "\\&" + whole if whole.startswith(("\\(aq", ".")) else whole


def cells(row):
    return [it.strip() for it in row.strip("|").split(" | ")]


def body(lines, command):
    """The paragraphs, tables and examples of a part, as lines of troff."""
    out, text, table = [], [], []

    def close():
        if text:
            out.extend([*([] if not out or out[-1].startswith(".SH") else [".PP"]), marked(" ".join(text), command)])
            text.clear()
        if table:
            if len(table[0]) == 3:
                out.append(".SH EXIT STATUS")
            for words, *says in table[1:]:
                out.extend([".TP", marked(words, command), marked(": ".join(it for it in says if it), command)])
            table.clear()

    for line in [*lines, ""]:
        if line.startswith("|"):
            if not re.fullmatch(r"[|-]+", line):
                table.append(cells(line))
        elif line.startswith("    "):
            close()
            out.extend([".EX", "    " + escaped(re.sub(r"\bbin/(\w+)", lambda found: installed(found[1]), line.strip())), ".EE"])
        elif line.startswith("### "):
            close()
            if line != "### Statuses":
                out.append(f".SH {line[4:].upper()}")
        elif line:
            text.append(line.strip())
        else:
            close()
    return out


def synopsis(lines, command):
    """The forms of the words, from the first cells of the table of words."""
    forms = []
    for row in lines:
        if row.startswith(f"| `{command}"):
            forms += re.findall(rf"`{command}([^`]*)`", cells(row)[0])
    return [it for form in forms for it in (".br", f".B {installed(command)}", f"{escaped(form.strip())}") if it]


def pages(document, version, moment):
    """The manual pages of a document's commands, by their names. The moment, in seconds, gives the day in them."""
    found = sections(document)
    day = time.strftime("%Y-%m-%d", time.gmtime(moment))
    for command, (purpose, rows) in sorted(found.items()):
        title = installed(command)
        others = ", ".join(f"\\fB{escaped(installed(it))}\\fR(1)" for it in sorted(found) if it != command)
        lines = [
            f'.TH {escaped(title.upper())} 1 "{day}" "sts {version}" "sts"',
            ".SH NAME", f"{escaped(title)} \\- {escaped(purpose)}",
            ".SH SYNOPSIS", *synopsis(rows, command)[1:],
            ".SH DESCRIPTION", *body(rows, command),
            ".SH SEE ALSO", others,
        ]
        yield f"{title}.1", "\n".join(lines) + "\n"
