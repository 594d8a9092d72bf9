"""Records by their fields, and what differs between two in the words of the standards."""
import dataclasses
import pathlib
import unittest

from lte_sec.drive import frames, records

SESSIONS = pathlib.Path(__file__).resolve().parent.parent.parent / "examples" / "serve"


def replies() -> list[frames.Reply]:
    """The replies of the kept sessions that send a record."""
    lines = [
        line.split() for file in sorted(SESSIONS.glob("*.frames")) for line in file.read_text().splitlines() if line
    ]
    found = [frames.read_reply(bytes.fromhex(text)[2:]) for mark, text in lines if mark == "<"]
    return [reply for reply in found if reply.record is not None]


def sent(kind: int) -> frames.Reply:
    """The first reply that sends a record of this kind on S1 or X2."""
    return next(reply for reply in replies() if reply.to[0] in (3, 5, 6) and reply.record and reply.record[0] == kind)


def changed(reply: frames.Reply, place: int, octets: bytes) -> frames.Reply:
    """The reply with octets of its record replaced."""
    assert reply.record is not None
    return dataclasses.replace(reply, record=reply.record[:place] + octets + reply.record[place + len(octets) :])


class Records(unittest.TestCase):
    def test_each_record_of_the_kept_sessions_is_read(self) -> None:
        found = [records.read(reply.to, reply.record) for reply in replies() if reply.record is not None]
        self.assertNotIn(None, found)
        self.assertLessEqual(
            {
                "Initial Context Setup Request",
                "X2 Handover Request",
                "Path Switch Request Acknowledge",
                "NAS message",
                "RRC message on SRB1",
            },
            {record.message for record in found if record},
        )

    def test_fields_are_told_by_their_names(self) -> None:
        record = records.read(bytes([6, 1]), sent(0x30).record or b"")
        assert record is not None
        self.assertEqual(
            ["connection", "source", "attempt", "cell", "capabilities", "NCC", "KeNB*"], list(record.fields)
        )
        self.assertEqual(
            ("11,101", "a020", "0"), (record.fields["cell"], record.fields["capabilities"], record.fields["NCC"])
        )

    def test_an_answer_one_ncc_ahead_is_told_in_words(self) -> None:
        wanted = sent(0x23)
        got = changed(changed(wanted, 9, b"\x02"), 10, bytes(32))
        self.assertEqual(
            "Path Switch Request Acknowledge: NCC is 2, wanted 1; NH differs", records.in_words(wanted, got)
        )
        lines = records.differences(wanted.spelled(), got.spelled())
        self.assertTrue(lines[1].startswith("record: wanted 23"), lines)

    def test_another_message_one_missing_and_one_too_many_are_told(self) -> None:
        request, answer = sent(0x30), sent(0x31)
        self.assertEqual(
            "X2 Handover Request Acknowledge is sent, wanted X2 Handover Request", records.in_words(request, answer)
        )
        self.assertEqual("X2 Handover Request is missing", records.in_words(request, frames.Reply()))
        self.assertEqual("X2 Handover Request is sent, wanted none", records.in_words(frames.Reply(), request))

    def test_what_is_no_record_is_told_by_its_octets_alone(self) -> None:
        wanted = sent(0x23)
        cut = dataclasses.replace(wanted, record=(wanted.record or b"")[:5])
        self.assertIsNone(records.in_words(wanted, cut))
        self.assertEqual(1, len(records.differences(wanted.spelled(), cut.spelled())))

    def test_another_address_is_told(self) -> None:
        wanted = sent(0x30)
        self.assertEqual(
            "X2 Handover Request: it goes to station x2 station=3, wanted station x2 station=1",
            records.in_words(wanted, dataclasses.replace(wanted, to=bytes([6, 3]))),
        )

    def test_a_derivation_is_told_by_what_it_makes(self) -> None:
        files = {
            role: [
                line.split()[1]
                for line in (SESSIONS / f"{name}.frames").read_text().splitlines()
                if line.startswith("<")
            ]
            for role, name in (("phone", "phone"), ("station", "station-0"), ("core", "core"))
        }
        found = {
            role: {
                name
                for text in texts
                for name in records.derivation_names(role, frames.read_reply(bytes.fromhex(text)[2:]))
            }
            for role, texts in files.items()
        }
        radio = {"KRRCenc", "KRRCint", "KUPenc"}
        self.assertEqual({"KeNB", "KNASenc", "KNASint", "KeNB*", "NH 1 of 1"} | radio, found["phone"])
        self.assertEqual(
            {"KeNB* for PCI 11, EARFCN-DL 101"} | radio, {name for name in found["station"] if "PCI 10" not in name}
        )
        self.assertEqual({"KeNB", "KNASenc", "KNASint", "NH"}, found["core"])

    def test_each_derivation_of_the_kept_sessions_has_a_name(self) -> None:
        for file in sorted(SESSIONS.glob("*.frames")):
            for text in (line.split()[1] for line in file.read_text().splitlines() if line.startswith("<")):
                reply = frames.read_reply(bytes.fromhex(text)[2:])
                self.assertEqual(
                    len(reply.derived), len(records.derivation_names(file.stem.split("-")[0], reply)), text
                )

    def test_a_key_that_differs_is_told_by_its_name(self) -> None:
        wanted = sent(0x30)
        told = records.differences(
            wanted.spelled(), dataclasses.replace(wanted, derived=(bytes(32),)).spelled(), "station 0"
        )
        self.assertTrue(told[0].startswith("KeNB* for PCI 11, EARFCN-DL 101: wanted "), told)
        self.assertTrue(
            records.differences(wanted.spelled(), dataclasses.replace(wanted, derived=(bytes(32),)).spelled())[
                0
            ].startswith("derivation 0: wanted ")
        )


if __name__ == "__main__":
    unittest.main()
