"""Job lines of both forms: an old one, the longer one that says the same, and one with pilots and a code number. Prints of each what
it asks for, and what comes of it moved to either form: a line, or the number of the check that refuses it.
    PYTHONPATH=python python3 examples/lines.py"""
import sccc

LINES = [b"13,0\n", b"13,0,0,-\n", b"37,2,1,262142\n"]


def moved(move, line):
    try:
        return move(line).decode().strip()
    except sccc.ScccError as refusal:
        return f"refused,{refusal.number}"


for line in LINES:
    job = sccc.job(line)
    longer = moved(sccc.lengthen, line)
    old = moved(sccc.shorten, line)

    code = "unscrambled" if job.code is None else f"code {job.code}"
    print(
        f"{line.decode().strip()}: format {job.format}, pattern {job.pattern}, pilots {job.pilots}, {code}; "
        f"lengthened {longer}; shortened {old}"
    )
