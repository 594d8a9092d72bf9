"""Security Mode Commands, Service Requests and connections that are lost, cross one another or are refused."""
from derivations import CELLS, KASMES, kenb, next_hop, star
from procedure import Procedure, Wanted

KASME, OTHER = KASMES[:2]
FIRST = kenb(KASME, 0)


def command_sent_again() -> Procedure:
    it = Procedure(
        "a NAS Security Mode Command is lost, and sent again with the next COUNT when T3460 expires (TS 24.301 "
        "5.4.3.7); here a second one is not sent while one is open"
    )
    it.authenticate()
    it.command_nas()
    it.step('"smc"', Wanted(departs=True), sends=True)
    return it


def command_and_service_request_cross() -> Procedure:
    it = Procedure(
        "a Service Request crosses a NAS Security Mode Command of a new KASME: KeNB of the old KASME and COUNT 1, "
        "the command is aborted (TS 24.301 5.4.3.7); here it stays open"
    )
    it.attach()
    it.release()
    it.authenticate(1)
    it.command_nas()
    it.request_service()
    it.connect(2, kenb(KASME, 1))
    it.packet()
    it.step('"smc"', Wanted(departs=True), sends=True)
    return it


def counts_of_a_new_context() -> Procedure:
    it = Procedure(
        "both NAS COUNTs of a new KASME begin at 0 (TS 24.301 4.4.3.1): three messages behind the Complete, a "
        "Service Request of COUNT 4, KeNB of the new KASME and COUNT 4"
    )
    it.attach()
    it.message(5)
    it.authenticate(1)
    it.message()
    it.command_nas()
    it.deliver(sends=True)
    it.deliver(wanted=Wanted(ncc=0, way="initial", key=kenb(OTHER, 0)), sends=True)
    it.step('"idle"')
    it.message(3)
    it.request_service()
    it.connect(1, kenb(OTHER, 4))
    it.packet()
    return it


def messages_behind_a_service_request() -> Procedure:
    it = Procedure(
        "three NAS messages come behind the Service Request, before the connection: KeNB of the COUNT 1 of the "
        "Service Request (7.2.6.2, A.3)"
    )
    it.attach()
    it.release()
    it.request_service()
    it.message(3)
    it.connect(1, kenb(KASME, 1))
    it.packet()
    return it


def service_request_lost() -> Procedure:
    it = Procedure(
        "a Service Request is lost, and the next has COUNT 2: KeNB of COUNT 2; the first one, late, is refused"
    )
    it.attach()
    it.release()
    lost = it.step('"service"', sends=True)
    it.step('"idle"')
    it.request_service()
    it.deliver(lost, Wanted(answer="MacFails"))
    it.connect(1, kenb(KASME, 2))
    it.packet()
    return it


def service_request_then_a_reject() -> Procedure:
    it = Procedure(
        "behind a Service Request a NAS Security Mode Command with other capabilities is rejected under the context "
        "in use (TS 24.301 5.4.3.5): KeNB of the old KASME and COUNT 1 (7.2.6.2)"
    )
    it.attach()
    it.release()
    it.request_service()
    it.mismatch(1, "8020")
    it.connect(1, kenb(KASME, 1))
    it.packet()
    return it


def bidding_down() -> Procedure:
    it = Procedure(
        "a NAS Security Mode Command with fewer capabilities is rejected, and nothing of its KASME is in use "
        "(7.2.4.4); the next authentication succeeds: KeNB of its KASME"
    )
    it.mismatch(0, "8020")
    it.secure_nas(1)
    it.connect(0, kenb(OTHER, 0))
    it.packet()
    return it


def two_commands_of_one_authentication() -> Procedure:
    it = Procedure(
        "a Reject ends the procedure, and the authentication stays: a second command of the same KASME has downlink "
        "COUNT 1; the connection goes on, X2 horizontal with NCC 0"
    )
    it.attach()
    it.mismatch(1, "8020")
    it.command_nas()
    it.deliver(wanted=Wanted(answer="CapsMismatch"), sends=True)
    it.deliver()
    it.over_x2(0, 1, 0, star(FIRST, 1), "horizontal")
    it.switch_path(2, next_hop(KASME, FIRST, 2))
    it.packet()
    return it


def complete_late_behind_idle() -> Procedure:
    it = Procedure(
        "the Complete of a new KASME is late: the phone is idle by then and asks for service under the new context; "
        "both arrive, KeNB of the new KASME and COUNT 1"
    )
    it.attach()
    it.release()
    it.authenticate(1)
    it.command_nas()
    complete = it.deliver(sends=True)
    it.step('"idle"')
    request = it.step('"service"', sends=True)
    it.deliver(complete)
    it.deliver(request)
    it.connect(1, kenb(OTHER, 1))
    it.packet()
    return it


def connection_without_a_message() -> Procedure:
    it = Procedure(
        "no KeNB of the same COUNT again (7.2.6.2): without a new NAS message no connection; then KeNB of COUNT 1, "
        "and a new chain"
    )
    it.attach()
    it.packet()
    it.release()
    it.step(f'"connect", cell = {list(CELLS[0])}', Wanted(answer="NoTrigger"))
    it.request_service()
    key = kenb(KASME, 1)
    it.connect(0, key)
    it.packet()
    it.over_x2(0, 1, 0, star(key, 1), "horizontal")
    it.switch_path(2, next_hop(KASME, key, 2))
    return it


def null_integrity_alone() -> Procedure:
    it = Procedure(
        "a phone that has EIA0 alone, and no emergency call: the core chooses no algorithm (5.1.4.1)", caps="8080"
    )
    it.authenticate()
    it.command_nas(wanted=Wanted(answer="NoAlgorithm"))
    return it


def same_ksi_again() -> Procedure:
    it = Procedure(
        "an authentication has the KSI of the context in use: the network takes "
        "another (TS 24.301 5.4.2.2); here it is taken"
    )
    it.attach()
    it.step(f'"auth", ksi = 0, kasme = "{OTHER.hex()}"', Wanted(answer="refused", departs=True))
    return it


def connection_while_a_command_is_open() -> Procedure:
    it = Procedure(
        "a connection is asked for while a NAS Security Mode Command is open: the core waits (7.2.10); here it "
        "connects, with KeNB of the Service Request"
    )
    it.attach()
    it.release()
    it.request_service()
    it.authenticate(1)
    it.command_nas()
    it.step(f'"connect", cell = {list(CELLS[0])}', Wanted(answer="waits", departs=True))
    return it


def command_while_security_starts() -> Procedure:
    it = Procedure(
        "a NAS Security Mode Command of a new KASME while an initial context is set up: the core waits (7.2.10), "
        "KeNB of COUNT 0; here the phone has the new KASME, and refuses the RRC command"
    )
    it.secure_nas()
    setup = it.step(f'"connect", cell = {list(CELLS[0])}', Wanted(ncc=0, way="initial", key=FIRST), sends=True)
    it.authenticate(1)
    it.command_nas()
    command = it.deliver(sends=True)
    air = it.deliver(setup, Wanted(ncc=0, way="given", key=FIRST), sends=True)
    it.deliver(command, Wanted(ncc=0, way="initial", key=kenb(OTHER, 0)), sends=True)
    it.deliver(air, Wanted(ncc=0, way="initial", key=FIRST, departs=True), sends=True)
    return it


def command_while_the_key_changes() -> Procedure:
    it = Procedure(
        "a NAS Security Mode Command of a third KASME while UE Context Modification takes the second into use: the "
        "core waits (7.2.10); here it goes out, and the station refuses the change that follows"
    )
    it.attach()
    it.complete_nas()
    key = star(kenb(OTHER, 0), 0)
    it.deliver(wanted=Wanted(ncc=0, key=key), sends=True)
    it.authenticate(2)
    it.command_nas(wanted=Wanted(answer="waits", departs=True))
    return it


def command_altered_on_the_air() -> Procedure:
    it = Procedure(
        "an RRC Security Mode Command is altered on the air, and refused; the right one is taken behind it (TS "
        "36.331 5.3.4.3, which has the phone send a failure, too)"
    )
    it.secure_nas()
    it.step(f'"connect", cell = {list(CELLS[0])}', Wanted(ncc=0, way="initial", key=FIRST), sends=True)
    right = it.deliver(wanted=Wanted(ncc=0, way="given", key=FIRST), sends=True)
    it.step(
        '"inject", to = "phone", bearer = "srb1", station = 0, air = 1, octets = "0001220000000001deadbeef"',
        Wanted(answer="MacFails"),
    )
    it.deliver(right, Wanted(ncc=0, way="initial", key=FIRST), sends=True)
    it.deliver()
    it.packet()
    return it
