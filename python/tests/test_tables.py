"""Each line of the tables of `lte_tables` is read, and what Python adds to one has a row for each."""
import unittest

from lte_sec.common import tables
from lte_sec.drive import frames, records
from lte_sec.runs import scenario_fields
from lte_sec.whatif import healing, outcomes

TABLES = ("phone", "core", "station", "step", "fleet")  # of a scenario


class Tables(unittest.TestCase):
    def test_each_line_is_read(self) -> None:
        read = [
            *tables.MESSAGES,
            *tables.FAULTS,
            *tables.OUTCOMES,
            *tables.HEALS,
            *tables.FIELDS,
            *tables.ANSWERS,
            *tables.sent(),
            *(kind for role in frames.INPUTS for kind in tables.inputs(role)),
            *records.NAS,
            *records.RRC,
            *records.S1,
            *records.X2,
        ]
        self.assertEqual(len(read), len(tables.LINES))

    def test_what_python_adds_to_a_word_has_a_row_for_each(self) -> None:
        self.assertEqual(tuple(outcomes.LOOKS), tables.OUTCOMES)
        self.assertEqual((*healing.EVENTS, healing.NOTHING), tables.HEALS)

    def test_fields_of_a_scenario_are_those_that_the_program_reads(self) -> None:
        fields = [
            *scenario_fields.SETUP.values(),
            *scenario_fields.STEPS.values(),
            [scenario_fields.OF_CORE, scenario_fields.of_phone(2)],
        ]
        self.assertEqual({*TABLES, "do", *(field.name for each in fields for field in each)}, set(tables.FIELDS))

    def test_each_message_that_is_sent_has_a_name(self) -> None:
        self.assertLessEqual(
            {message for (_, came), sent in tables.sent().items() for message in (came, sent)}, set(tables.MESSAGES)
        )
        self.assertLessEqual(
            {message for message, _ in [*records.S1.values(), *records.X2.values()]}, set(tables.MESSAGES)
        )


if __name__ == "__main__":
    unittest.main()
