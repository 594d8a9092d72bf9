"""Texts that are no scenario, and the fault that is told of each: before the steps, or in the one step that there is.

They were written down from the tables of docs/SCENARIOS.md and their order of faults.
"""

Faults = list[tuple[str, str]]

PHONE = "phone={caps='a020'}\n"
STATION = "station=[{id=1,cells=[[10,100]]}]\n"
FLEET = "fleet={phones=2}\n"

WHOLE: Faults = [
    ("", "missing phone"),
    ("phone=1", "wrong phone"),
    ("phone=1\nx=1", "unknown"),
    ("[phone]", "missing caps"),
    ("[phone]\nx=1", "unknown"),
    ("[phone]\ncaps=1", "wrong caps"),
    ("[phone]\ncaps='a02'", "wrong caps"),
    ("[phone]\ncaps='a02000'", "wrong caps"),
    ("[phone]\ncaps='a02g'", "wrong caps"),
    ("[phone]\ncaps='A020'", "missing station"),
]

BEHIND_PHONE: Faults = [
    ("core=1", "wrong core"),
    ("[core]\nx=1\npriority=1", "unknown"),
    ("[core]\npriority=2", "wrong priority"),
    ("[core]\npriority=[]", "wrong priority"),
    ("[core]\npriority=[1]", "wrong priority"),
    ("[core]\npriority=['2']", "wrong priority"),
    ("[core]\npriority=[0,0]", "wrong priority"),
    ("[core]\npriority=[2,0,2]", "wrong priority"),
    ("[core]\npriority=[1]\nfirst=0", "wrong priority"),
    ("[core]\nfirst=0", "wrong first"),
    ("[core]\nfirst=-1", "wrong first"),
    ("[core]\nfirst=4294967296", "wrong first"),
    ("[core]\nfirst=1.0", "wrong first"),
    ("[core]\nfirst=4294967295\npriority=[0]", "missing station"),
    ("station=[]", "missing station"),
    ("station=1", "wrong station"),
    ("[station]", "wrong station"),
    ("station=[{id=9},1]", "wrong station"),
    ("station=[{},{},{},{},{},{},{},{},{}]", "wrong station"),
    ("station=[{},{id=8,x=1}]", "missing id"),
    ("station=[{id=8,x=1}]", "unknown"),
    ("station=[{id=8,priority=1}]", "wrong id"),
    ("station=[{id=-1}]", "wrong id"),
    ("station=[{id=0,priority=[2,2],first=0}]", "wrong priority"),
    ("station=[{id=0,first=0}]", "wrong first"),
    ("station=[{id=0}]", "missing cells"),
    ("station=[{id=0,cells=1}]", "wrong cells"),
    ("station=[{id=0,cells=[]}]", "wrong cells"),
    ("station=[{id=0,cells=[[0,0],[1,0],[2,0],[3,0],[4,0]]}]", "wrong cells"),
    ("station=[{id=0,cells=[[504,0]]}]", "wrong cells"),
    ("station=[{id=0,cells=[[0,262144]]}]", "wrong cells"),
    ("station=[{id=0,cells=[[0,-1]]}]", "wrong cells"),
    ("station=[{id=0,cells=[[0]]}]", "wrong cells"),
    ("station=[{id=0,cells=[[0,0,0]]}]", "wrong cells"),
    ("station=[{id=0,cells=[['0',0]]}]", "wrong cells"),
    ("station=[{id=0,cells=[[0,0],[0,0]]}]", "wrong cells"),
    ("station=[{id=0,cells=[[0,0]]},{id=0}]", "wrong id"),
    ("station=[{id=0,cells=[[0,0]]},{id=1,cells=[[0,0]]}]", "wrong cells"),
    ("step=1\nstation=[{id=0}]", "missing cells"),
    ("step=1\nstation=[{id=0,cells=[[0,0]]}]", "wrong step"),
    ("step=[1]\nstation=[{id=0,cells=[[0,0]]}]", "wrong step"),
    ("step={}\nstation=[{id=0,cells=[[0,0]]}]", "wrong step"),
    ("fleet={phones=1}\nstation=[{id=0,cells=[[0,0]]}]", "unknown"),
    ("station=[{id=0,cells=[[0,0]],core=0}]", "unknown"),
]

# A step by itself, behind a phone and a station.
STEPS: Faults = [
    ("", "missing do"),
    ("x=1", "missing do"),
    ("do=1", "wrong do"),
    ("do='Auth',x=1", "wrong do"),
    ("do='auth',ksi=7,x=1", "unknown"),
    ("do='auth'", "missing ksi"),
    ("do='auth',ksi=7", "wrong ksi"),
    ("do='auth',ksi=0", "missing kasme"),
    ("do='auth',ksi=0,kasme='00',caps=1", "wrong kasme"),
    (
        "do='auth',ksi=6,kasme='00000000000000000000000000000000000000000000000000000000000000aB',caps='a02'",
        "wrong caps",
    ),
    ("do='smc',station=1", "unknown"),
    ("do='connect'", "missing cell"),
    ("do='connect',cell=[10]", "wrong cell"),
    ("do='connect',cell=10,station=1", "unknown"),
    ("do='x2',cell=1", "missing station"),
    ("do='s1',station=0", "wrong station"),
    ("do='intra',station=1", "missing cell"),
    ("do='command'", "missing station"),
    ("do='cancel',station='1'", "wrong station"),
    ("do='ask',station=1,cell=[10,100]", "unknown"),
    ("do='deliver'", "missing record"),
    ("do='deliver',record='-1'", "wrong record"),
    ("do='user'", "missing from"),
    ("do='user',from='core',station=1", "wrong from"),
    ("do='user',from='phone',station=1", "unknown"),
    ("do='user',from='station',bearer='srb1'", "missing station"),
    ("do='user',from='station',station=1,bearer='srb1'", "wrong bearer"),
    ("do='user',from='phone',bearer='drb5'", "wrong bearer"),
    ("do='user',from='phone',bearer='drb1'", "missing text"),
    ("do='user',from='phone',bearer='drb1',text='0'", "wrong text"),
    ("do='rrc',from='phone',bearer='drb1',text='zz'", "wrong bearer"),
    ("do='nas',station=1", "unknown"),
    ("do='nas',from='station'", "wrong from"),
    ("do='nas',from='core',text=0", "wrong text"),
    ("do='skip',station=1", "missing who"),
    ("do='skip',who='core',station=1", "unknown"),
    ("do='skip',who='core',bearer='srb1'", "wrong bearer"),
    ("do='skip',who='station',station=1,bearer='nas'", "wrong bearer"),
    ("do='skip',who='phone',bearer='nas'", "missing n"),
    ("do='skip',who='phone',bearer='drb4',n=4294967296", "wrong n"),
    ("do='inject',station=1,air=1", "missing to"),
    ("do='inject',to='all',station=1", "wrong to"),
    ("do='inject',to='phone',station=1", "missing bearer"),
    ("do='inject',to='core',bearer='drb1',station=1", "wrong bearer"),
    ("do='inject',to='phone',bearer='nas',station=1", "unknown"),
    ("do='inject',to='core',bearer='nas',air=1", "unknown"),
    ("do='inject',to='phone',bearer='srb2'", "missing station"),
    ("do='inject',to='station',bearer='srb2',station=2", "wrong station"),
    ("do='inject',to='station',bearer='srb2',station=1", "missing air"),
    ("do='inject',to='station',bearer='srb2',station=1,air=-1", "wrong air"),
    ("do='inject',to='core',bearer='nas',octets='0'", "wrong octets"),
    ("do='idle',phone=0", "unknown"),
]

# The whole text of a fleet, and a step of one of two phones.
FLEETS: Faults = [
    ("", "missing fleet"),
    ("x=1", "unknown"),
    ("fleet=1\nx=1", "unknown"),
    ("phone=1\ncore=1\nstation=1", "missing fleet"),
    ("fleet=1\nphone=1", "wrong fleet"),
    ("[[fleet]]\nphones=1", "wrong fleet"),
    ("fleet={}", "missing phones"),
    ("fleet={phones=0,x=1}", "unknown"),
    ("fleet={phone=1}", "unknown"),
    ("fleet={phones=0}", "wrong phones"),
    ("fleet={phones=257}", "wrong phones"),
    ("fleet={phones=-1}", "wrong phones"),
    ("fleet={phones=1.0}", "wrong phones"),
    ("fleet={phones='1'}\nphone=1", "wrong phones"),
    ("fleet={phones=1}\ncore=1", "missing phone"),
    ("fleet={phones=256}\nphone=1", "wrong phone"),
    ("fleet={phones=1}\nphone={caps='a020'}\nstation=[{id=0,cells=[[0,0]],core=0}]", "unknown"),
]
FLEET_STEPS: Faults = [
    ("phone=2", "missing do"),
    ("phone=2,do='call'", "wrong do"),
    ("phone=2,do='idle',station=1", "unknown"),
    ("phone=2,do='inject',to='core',bearer='nas',air=1", "unknown"),
    ("phone=2,do='idle'", "wrong phone"),
    ("phone=-1,do='idle'", "wrong phone"),
    ("phone='0',do='idle'", "wrong phone"),
    ("phone=0.0,do='idle'", "wrong phone"),
    ("phone=4294967296,do='idle'", "wrong phone"),
    ("phone=2,do='auth'", "wrong phone"),
    ("phone=2,do='user',from='core',station=2", "wrong phone"),
    ("phone=1,do='auth'", "missing ksi"),
    ("phone=1,do='user',from='core',station=2", "wrong from"),
]

# Behind the phone of a scenario of two cores, and a step.
TWO_BEHIND_PHONE: Faults = [
    ("fleet={phones=1}", "unknown"),
    ("station=[{id=0,core=2,x=1}]", "unknown"),
    ("station=[{id=8,core=2}]", "wrong id"),
    ("station=[{id=0,core=2}]", "missing cells"),
    ("station=[{id=0,core=2,cells=[]}]", "wrong cells"),
    ("station=[{id=0,core=2,cells=[[0,0]]},{}]", "wrong core"),
    ("station=[{id=0,core=-1,cells=[[0,0]]}]", "wrong core"),
    ("station=[{id=0,core='1',cells=[[0,0]]}]", "wrong core"),
    ("station=[{id=0,core=1,cells=[[0,0]]},{}]", "missing id"),
]
TWO_STEPS: Faults = [("do='idle',phone=0", "unknown")]

# What is no document.
NO_DOCUMENTS = [b"phone", b"phone=1\nphone=2", b"caps='a020", b"n=9223372036854775808", b"\xff"]

# The beginning of a step whose text is in hex, how many octets that may have at most, and the fault if there are more.
LONGEST = [
    ("do='user',from='phone',bearer='drb1',text", 1500, "wrong text"),
    ("do='rrc',from='phone',bearer='srb1',text", 200, "wrong text"),
    ("do='nas',from='phone',text", 200, "wrong text"),
    ("do='inject',to='core',bearer='nas',octets", 1536, "wrong octets"),
]


def told() -> list[tuple[str, str, str]]:
    """The word, the text and the output of each that is refused."""
    setups = [("run", "", WHOLE), ("run", PHONE, BEHIND_PHONE), ("fleet", "", FLEETS), ("two", PHONE, TWO_BEHIND_PHONE)]
    steps = [("run", "", STEPS), ("fleet", FLEET, FLEET_STEPS), ("two", "", TWO_STEPS)]
    found = [
        (word, before + text, f"refused setup {fault}\n") for word, before, faults in setups for text, fault in faults
    ]
    found += [
        (word, step_of(text, before), f"refused step 0 {fault}\n")
        for word, before, faults in steps
        for text, fault in faults
    ]
    found += [("run", long_step(step, octets + 1), f"refused step 0 {fault}\n") for step, octets, fault in LONGEST]
    last = "[[step]]\ndo='idl'\n"
    found.append(("run", begun(199_999) + last, "refused step 199999 wrong do\n"))
    found.append(("run", begun(200_000) + last, "refused steps\n"))
    return found


def step_of(step: str, before: str = "") -> str:
    return f"{before}{PHONE}{STATION}step=[{{{step}}}]"


def long_step(step: str, octets: int) -> str:
    """A step with a text of so many octets."""
    return step_of(f"{step}='{octets * '00'}'")


def begun(steps: int) -> str:
    """A scenario of so many good steps."""
    return PHONE + STATION + steps * "[[step]]\ndo='idle'\n"
