"""tools/shared-object && python3 python/example.py samples/pairs.sheet"""
import sys

import breezedrum

ALLOWANCE = 1_000_000
checker = breezedrum.Checker()
with open(sys.argv[1], "rb") as file:
    sheet = file.read()
read = checker.read_sheet(sheet)
if read.number:
    sys.exit(f"refused: {read}")
verdict = checker.verdict(read.words, (), ALLOWANCE)
if verdict.number:
    print("verdict ", verdict)
elif verdict.yes:
    print("verdict  yes, every two quorums share an archive")
else:
    print("verdict  no,", breezedrum.shown(verdict.first), "and", breezedrum.shown(verdict.second), "share no archive")
for name, listed in ("minimal ", checker.minimal(read.words, ALLOWANCE)), ("blocking", checker.blocking(read.words, ALLOWANCE)):
    print(name, listed if listed.number else "  ".join(map(breezedrum.shown, listed.words)) or "none")
print("The report:", checker.report(sheet).text.decode(), sep="\n", end="")
