"""Holds the command roads to its output, and to its complaints about wrong files and commands."""
import contextlib
import io
import os
import subprocess
import sys
import tempfile
import unittest

from vihrolom.commands import roads
from vihrolom.tests import EXAMPLES, with_package

EXAMPLE = os.path.join(EXAMPLES, "roads.csv")
FERRY = os.path.join(EXAMPLES, "ferry.csv")

# network S of REFERENCE, section 8.1
S = """from,to,calm,rush
A,B,2,4
A,C,5,1
B,C,1,2
B,D,6,1
C,D,2,7
"""
HEADER = "from,to,calm\n"


class Commands(unittest.TestCase):
    # the command, and its status if it fails
    COMMAND, FAILURE = roads, 1

    def setUp(self):
        folder = tempfile.TemporaryDirectory()
        self.addCleanup(folder.cleanup)
        self.folder = folder.name
        self.file = os.path.join(folder.name, "roads.csv")

    def write(self, content):
        with open(self.file, "wb") as file:
            file.write(content.encode() if isinstance(content, str) else content)

    def run_main(self, *arguments):
        """Status, standard output and standard error of a command."""
        out, err = io.TextIOWrapper(io.BytesIO(), encoding="utf-8"), io.StringIO()
        with contextlib.redirect_stdout(out), contextlib.redirect_stderr(err):
            status = self.COMMAND.main(arguments)
        return status, out.buffer.getvalue().decode(), err.getvalue()

    def complains(self, complaint, *arguments):
        """The command prints this one line only, and fails."""
        due = self.FAILURE, "", f"{self.COMMAND.__name__.rpartition('.')[2]}: {complaint}\n"
        self.assertEqual(self.run_main(*arguments), due)

    def complains_of_file(self, complaint, content):
        """The same for a file, whose name stands before the complaint."""
        self.write(content)
        self.complains(f"{self.file}{complaint}", self.file)


class Records(Commands):
    HEADER = "from,to,column,time,stamp\n"

    def setUp(self):
        super().setUp()
        self.write(S)
        self.told = os.path.join(self.folder, "records.csv")

    def tell(self, content):
        with open(self.told, "w", encoding="utf-8") as file:
            file.write(content)
        return self.run_main(self.file, "--records", self.told)

    def test_records_count_by_stamp(self):
        self.write(S.replace("C,D,2,7", "C,D,2,9"))
        due = self.run_main(self.file)
        self.write(S)
        lines = "C,D,rush,8,3\nC,D,rush,9,3\nC,D,rush,1,2\nA,B,calm,2,0\n"
        self.assertEqual(self.tell(self.HEADER + lines), due)

    def test_records_close_and_open(self):
        self.write(S.replace("C,D,2,7", "C,D,2,-"))
        due = self.run_main(self.file)
        self.write(S)
        self.assertEqual(self.tell(self.HEADER + "C,D,rush,-,1\n"), due)
        self.assertEqual(self.tell(self.HEADER + "C,D,rush,,1\n"), due)
        self.assertEqual(self.tell(self.HEADER + "C,D,rush,-,1\nC,D,rush,7,1\n"), self.run_main(self.file))
        self.assertEqual(self.tell(self.HEADER), self.run_main(self.file))

    def complains_of_records(self, complaint, content):
        self.assertEqual(self.tell(content), (1, "", f"roads: {self.told}{complaint}\n"))

    def test_complaints(self):
        road = "the road from 'C' to 'D' in 'rush'"
        self.complains_of_records(" is empty", "")
        self.complains_of_records(", line 1: the first line must be from,to,column,time,stamp", "from,to\n")
        for line, complaint in (
            ("C,D,rush,1", "4 fields in place of 5"),
            ("D,C,rush,1,1", "there is no road from 'D' to 'C'"),
            ("C,X,rush,1,1", "there is no road from 'C' to 'X'"),
            ("C,D,noon,1,1", "there is no column 'noon'"),
            ("C,D,rush,1000001,1", f"the time of {road} is above 1000000: 1000001"),
            ("C,D,rush,1,x", f"the stamp of {road} is no whole number: 'x'"),
            ("C,D,rush,1,", f"the stamp of {road} is no whole number: ''"),
            ("C,D,rush,1,-1", f"the stamp of {road} is negative: -1"),
            ("C,D,rush,1,4294967296", f"the stamp of {road} is above 4294967295: 4294967296"),
        ):
            self.complains_of_records(f", line 2: {complaint}", f"{self.HEADER}{line}\n")


class Output(Commands):
    def test_network_s(self):
        self.write(S)
        expected = (
            "route A > C > D\n"
            "regret 3 column rush\n"
            "ranked 2 settled\n"
            "\n"
            "ranked by calm, with the deviation there; * marks the route above\n"
            "      calm  rush  deviation  figure  worst  route\n"
            "best     5     5\n"
            "   1     5    13          0       8   rush  A > B > C > D\n"
            "  *2     7     8          2       3   rush  A > C > D\n"
            "   3     8     5          3       3   calm  A > B > D\n"
        )
        self.assertEqual(self.run_main(self.file), (0, expected, ""))
        named = ("--from", "A", "--to", "D", "--column", "calm", "--paths", "8")
        self.assertEqual(self.run_main(self.file, *named), (0, expected, ""))

    def test_open_answer(self):
        self.write(S)
        status, text, _ = self.run_main(self.file, "--paths", "1")
        self.assertEqual(status, 0)
        self.assertTrue(text.startswith("route A > B > C > D\nregret 8 column rush\nranked 1 open floor 2\n\n"))
        self.assertEqual(text.splitlines()[-1], "  *1     5    13          0       8   rush  A > B > C > D")

    def test_search(self):
        self.write(S)
        _, unsearched, _ = self.run_main(self.file, "--paths", "1")
        sheet, ranked = unsearched.split("\n\n")
        for limit, line in [
            ("5", "search settled by 5 roads tried: regret 3 column calm route A > B > D"),
            ("4294967295", "search settled by 5 roads tried: regret 3 column calm route A > B > D"),
            ("4", "search not settled by 4 roads tried"),
            ("0", "search not settled by 0 roads tried"),
        ]:
            expected = f"{sheet}\n{line}\n\n{ranked.replace('the route', 'the first route')}"
            self.assertEqual(self.run_main(self.file, "--paths", "1", "--search", limit), (0, expected, ""))
        # a settled answer needs no search
        self.assertEqual(self.run_main(self.file, "--search", "5"), self.run_main(self.file))

    def test_search_with_closed_roads(self):
        status, text, _ = self.run_main(FERRY, "--paths", "1", "--search", "100")
        self.assertEqual(status, 0)
        lines = text.splitlines()
        self.assertEqual(lines[:2], ["route Lab > Bridge > Clinic", "regret 23 column storm"])
        settled = r"search settled by \d+ roads tried: regret 15 column calm route Lab > Hill Road > Clinic"
        self.assertRegex(lines[3], f"^{settled}$")

    def test_other_ends_and_column(self):
        self.write(S)
        status, text, _ = self.run_main(self.file, "--from", "B", "--to", "D", "--column", "rush")
        self.assertEqual(status, 0)
        self.assertTrue(text.startswith("route B > D\nregret 3 column calm\nranked 1 settled\n\nranked by rush,"))
        self.assertEqual(text.splitlines()[-2].split(), ["*1", "6", "1", "0", "3", "calm", "B", ">", "D"])
        self.assertEqual(text.splitlines()[-1].split(), ["2", "3", "9", "8", "8", "rush", "B", ">", "C", ">", "D"])

    def test_spaces_quotes_blank_lines_and_marks(self):
        self.write('\ufefffrom, to, "calm"\r\n\r\n"Upper, Farm", Ěsk ,007\r\n')
        status, text, _ = self.run_main(self.file)
        self.assertEqual(status, 0)
        self.assertTrue(text.startswith("route Upper, Farm > Ěsk\nregret 0 column calm\nranked 1 settled\n"))

    def test_largest_file(self):
        pairs = [(a, b) for a in range(1, 201) for b in range(a + 1, min(a + 6, 201))]
        lines = [f"P{a},P{b}" + ",1000000" * 8 for a, b in pairs]
        lines += [f"P{b},P{a}" + ",1000000" * 8 for a, b in pairs[: 1000 - len(pairs)]]
        self.assertEqual(len(lines), 1000)
        self.write("from,to,a,b,c,d,e,f,g,h\n" + "\n".join(lines))
        status, text, _ = self.run_main(self.file, "--from", "P1", "--to", "P200", "--paths", "256")
        self.assertEqual(status, 0)
        self.assertEqual(len(text.splitlines()), 7 + 256)

    def test_example(self):
        status, text, _ = self.run_main(EXAMPLE, "--from", "Lab", "--to", "Ridge Clinic", "--column", "night")
        self.assertEqual(status, 0)
        self.assertEqual(text, self.run_main(EXAMPLE)[1])
        route = "Lab > North Gate > Brickfield > Ashby > Willow Ford > Lakeside > Sawmill > Fox Cross > Ridge Clinic"
        lines = text.splitlines()
        self.assertEqual(lines[:3], [f"route {route}", "regret 250 column morning", "ranked 5 settled"])
        self.assertEqual(lines[6].split(), ["best", "2465", "2680", "2635", "3335"])
        cheapest = "Lab > North Gate > Birch Hollow > Cold Spring > Deer Pass > Pine Lodge > Ridge Clinic"
        self.assertEqual(lines[7].split(None, 8), ["1", "2465", "2680", "2635", "4595", "0", "1260", "snow", cheapest])
        chosen = ["*3", "2595", "2930", "2760", "3335", "130", "250", "morning", route]
        self.assertEqual(lines[9].split(None, 8), chosen)
        self.assertEqual(len(lines), 7 + 8)

    def test_ferry(self):
        expected = (
            "route Lab > Hill Road > Clinic\n"
            "regret 15 column calm\n"
            "ranked 2 settled\n"
            "\n"
            "ranked by calm among the routes open in every column, with the deviation there; * marks the route above\n"
            "      calm  fog  storm  deviation  figure  worst  route\n"
            "best    26   32     52\n"
            "   1    39   46     75         13      23  storm  Lab > Bridge > Clinic\n"
            "  *2    41   47     52         15      15   calm  Lab > Hill Road > Clinic\n"
            "   3    42   50     79         16      27  storm  Lab > Quay > Bridge > Clinic\n"
            "   4    42   47     74         16      22  storm  Lab > Bridge > Landing > Clinic\n"
            "   5    45   51     78         19      26  storm  Lab > Quay > Bridge > Landing > Clinic\n"
        )
        self.assertEqual(self.run_main(FERRY), (0, expected, ""))
        with open(FERRY, encoding="utf-8") as file:
            self.write(file.read().replace("-", ""))
        self.assertEqual(self.run_main(self.file), (0, expected, ""))


class WrongFiles(Commands):
    def test_file_that_cannot_be_read(self):
        missing = os.path.join(self.folder, "missing.csv")
        self.complains(f"{missing}: No such file or directory", missing)
        self.complains(f"{self.folder}: Is a directory", self.folder)
        self.complains_of_file(" is no text in UTF-8", b"from,to,calm\nA,\xff,1\n")

    def test_empty_file(self):
        self.complains_of_file(" is empty", "")
        self.complains_of_file(" is empty", "\n \n\n")
        self.complains_of_file(" has no road", HEADER)

    def test_first_line(self):
        wanted = ", line 1: the first line must be from,to and the names of the columns"
        self.complains_of_file(wanted, "A,B,1\n")
        self.complains_of_file(wanted, "from,to\nA,B\n")
        self.complains_of_file(", line 1: the column 'b' stands there twice", "from,to,a,b,b\n")
        self.complains_of_file(", line 1: '' is no name", "from,to,a,,b\n")
        self.complains_of_file(", line 1: more than 8 columns", "from,to,a,b,c,d,e,f,g,h,i\n")

    def test_number_of_fields(self):
        self.complains_of_file(", line 2: 2 fields in place of 3", HEADER + "A,B\n")
        self.complains_of_file(", line 4: 4 fields in place of 3", HEADER + "A,B,1\n\nB,A,1,2\n")

    def test_times(self):
        for time, complaint in [
            ("fast", "no whole number: 'fast'"),
            ("1.5", "no whole number: '1.5'"),
            ("1_000", "no whole number: '1_000'"),
            ("٣", "no whole number: '٣'"),
            ("--", "no whole number: '--'"),
            ("-1", "negative: -1"),
            ("1000001", "above 1000000: 1000001"),
            ("9" * 5000, f"above 1000000: {'9' * 20}"),
        ]:
            wanted = f", line 3: the time of the road from 'B' to 'A' in 'calm' is {complaint}"
            self.complains_of_file(wanted, f"{HEADER}A,B,1\nB,A,{time}\n")

    def test_names(self):
        self.complains_of_file(", line 2: '' is no name", HEADER + ",B,1\n")
        self.complains_of_file(", line 3: 'B\\nC' is no name", HEADER + 'A,"B\nC",1\n')

    def test_quotes(self):
        self.write(HEADER + 'A,B,1\n"A"x,C,1\n')
        status, text, complaint = self.run_main(self.file)
        self.assertEqual((status, text, complaint.count("\n")), (1, "", 1))
        self.assertTrue(complaint.startswith(f"roads: {self.file}, line 3: "))

    def test_roads(self):
        twice = ", line 5: the road from 'A' to 'B' stands in line 2 already"
        self.complains_of_file(twice, HEADER + "A,B,1\nB,A,1\nB,C,1\nA,B,1\n")
        self.complains_of_file(", line 3: a road from 'B' to itself", HEADER + "A,B,1\nB,B,1\n")

    def test_limits(self):
        line = [f"P{a},P{a + 1},1\n" for a in range(1, 201)]
        self.complains_of_file(", line 201: more than 200 places", HEADER + "".join(line))
        pairs = [f"P{a},P{b},1\n" for a in range(1, 34) for b in range(1, 34) if a != b]
        self.complains_of_file(", line 1002: more than 1000 roads", HEADER + "".join(pairs))


class WrongCommands(Commands):
    def test_unknown_names(self):
        self.complains("there is no place 'Moon'", EXAMPLE, "--from", "Moon")
        self.complains("there is no place 'lab'", EXAMPLE, "--to", "lab")
        self.complains("there is no column 'rain'", EXAMPLE, "--column", "rain")

    def test_paths(self):
        for paths in ("0", "257", "-1", "4294967297", "many", "--1", "1.0", ""):
            self.complains(f"argument --paths: must be 1 to 256, and is {paths}", EXAMPLE, f"--paths={paths}")

    def test_search(self):
        for limit in ("-1", "4294967296", "9" * 5000, "all"):
            complaint = f"argument --search: must be 0 to 4294967295, and is {limit}"
            self.complains(complaint, EXAMPLE, f"--search={limit}")

    def test_ends(self):
        self.complains("the route begins and ends at 'Lab'", EXAMPLE, "--to", "Lab")
        self.write(S)
        self.complains("no path leads from 'D' to 'A'", self.file, "--from", "D", "--to", "A")
        closed = "no path that is open in every column leads from 'Quay' to 'Clinic'"
        self.write("from,to,calm,storm\nQuay,Landing,1,-\nLanding,Clinic,1,1\n")
        self.complains(closed, self.file)

    def test_options(self):
        self.complains("the following arguments are required: file")
        self.complains("unrecognized arguments: --fast", EXAMPLE, "--fast")

    def run_command(self, output, **environment):
        """Status and standard error of the command as a process."""
        command = [sys.executable, "-m", "vihrolom", "roads", EXAMPLE]
        environment = with_package(**environment)
        run = subprocess.run(command, env=environment, stdout=output, stderr=subprocess.PIPE, text=True)
        return run.returncode, run.stderr

    def test_output_that_cannot_be_written(self):
        reader, writer = os.pipe()
        os.close(reader)
        self.addCleanup(os.close, writer)
        self.assertEqual(self.run_command(writer), (1, "roads: cannot write: Broken pipe\n"))

    def test_missing_library(self):
        status, complaint = self.run_command(subprocess.DEVNULL, VIHROLOM_LIBRARY="/nowhere")
        self.assertEqual((status, complaint.count("\n")), (1, 1))
        self.assertIn("run tools/build-library", complaint)

    def test_process(self):
        self.assertEqual(self.run_command(subprocess.DEVNULL), (0, ""))


if __name__ == "__main__":
    unittest.main()
