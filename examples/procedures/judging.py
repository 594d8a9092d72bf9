"""What the program prints for a procedure, compared step by step with what the standard has."""
import subprocess

from procedure import NCCS, Procedure, Wanted


def faults_of(procedure: Procedure, program: str) -> list[str]:
    """Where the program's report is not as the procedure says; behind a step at which the profile departs nothing is
    compared."""
    word = "two" if procedure.cores == 2 else "run"
    ran = subprocess.run(
        [program, word], input=procedure.text(), capture_output=True, text=True, timeout=60, check=False
    )
    lines = ran.stdout.splitlines()
    if ran.returncode != 0 or len(lines) <= len(procedure.wanted):
        return [f"ended with status {ran.returncode}: {' '.join(lines[:1])}"]
    faults: list[str] = []
    for number, wanted in enumerate(procedure.wanted):
        differs = differences(lines[number], wanted)
        if wanted.departs:
            return (
                faults if differs else [*faults, f"step {number}: is as the standard has it, where the profile departs"]
            )
        faults += [f"step {number}: {it}" for it in differs]
    printed = {line.split()[3] for line in lines if line.startswith("row ")}
    return faults + [f"no row has the key {key.hex()}" for key in procedure.rows if key.hex() not in printed]


def differences(line: str, wanted: Wanted) -> list[str]:
    """What a line of the report has otherwise than is wanted."""
    if f" {wanted.answer}" not in line:
        return [f"{wanted.answer} is wanted, and the line is: {line}"]
    told = dict(part.split("=", 1) for part in line.split() if "=" in part)
    want = {
        "key": wanted.key.hex() if wanted.key is not None else None,
        "ncc": str(wanted.ncc % NCCS) if wanted.ncc is not None else None,
        "way": wanted.way,
    }
    return [
        f"{name} is {told.get(name, 'none')}, and {it} is wanted"
        for name, it in want.items()
        if it is not None and told.get(name) != it
    ]
