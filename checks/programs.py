"""Programs over all forms of the language, in checks/programs.txt under a line `# NAME` each, cut behind each of their
tokens: where an @ stands behind the token, what stands up to there spells a program, so that it is accepted or refused
by a code of names, types and limits, 8 to 15; else it is refused by code 6. The signs were set by hand from the
grammar. Tokens stand apart there, and the signs are taken out. PROGRAM is sts, as bin/program names it where it is
left out.

    checks/programs.sh [PROGRAM]
"""
import re
import subprocess
import sys

from repository import folder_with_sts, read

folder = folder_with_sts(*sys.argv[1:])
programs, cuts, wrong = 0, 0, 0
for part in re.split(r"(?m)^# ", read("checks/programs.txt"))[1:]:
    name, text = part.split("\n", 1)
    programs += 1
    so_far = ""
    for token, sign in re.findall(r"(\s*[^\s@]+)(\s*@)?", text):
        so_far += token
        cuts += 1
        with open(f"{folder}/p.ts", "w", encoding="ascii") as it:
            it.write(so_far)
        ran = subprocess.run(["./sts", "check", "p.ts"], cwd=folder, stdout=subprocess.PIPE, timeout=20)
        said = ran.stdout.split()
        code = int(said[1]) if said[:1] == [b"refused"] and ran.returncode == 10 else 0 if (ran.returncode, ran.stdout) == (0, b"accepted\n") else None
        right = code == 0 or code in range(8, 16) if sign else code == 6
        if not right:
            wrong += 1
            print(f"programs: {name}: {ran.stdout!r} and status {ran.returncode}, where {'a program' if sign else 'refused 6'} is due, up to: {so_far[-60:]!r}")
    if not sign:
        wrong += 1
        print(f"programs: {name}: no sign stands behind the whole")
print(f"programs: {programs} programs, cut at {cuts} tokens, {wrong} wrong")
sys.exit(1 if wrong or not cuts else 0)
