"""hwal-json, to-script and from-hbase-shell, run on texts whose answers follow from docs/COMMANDS.md and docs/FORMAT.md; each tool's help."""
import json
import os
import sys
import unittest

sys.path.insert(0, os.path.dirname(os.path.abspath(__file__)))
from tool_case import SHIPPED, Tool, entry
from store_files import logs

REPORT = """hwal 1
region 1 base 0 0
edit 1 1 1 done
reply 1 1 put ok 1
reply 1 2 scan 1 1
cell 1 user%201 info - 17 put %FF
reply 1 3 flush busy 2 1
reply 1 4 put memory
reply 1 5 put memory 3
reply 1 6 roll ok 1 2
reply 1 7 get memory
end 0
"""
SCRIPT = """time 1000
regions 2
handlers 1
table t
put 1 2 sync 1
cell r f q 5 put v ab
put 1 1 sync 2
cell r f q 5 put -
cell %2D f q 5 delete -
"""


class Json(Tool):
    def objects(self, text):
        status, said, _ = self.run_tool("hwal-json", given=text)
        return status, [json.loads(line) for line in said.splitlines()]

    def test_a_report(self):
        status, seen = self.objects(REPORT)
        self.assertEqual((status, len(seen)), (0, 12))
        self.assertEqual(seen[1], {"line": "region", "region": 1, "last": 0, "count": 0})
        wanted = {"line": "cell", "number": 1, "row": "user 1", "family": "info", "qualifier": "", "timestamp": 17, "kind": "put", "value": {"base64": "/w=="}}
        self.assertEqual(seen[5], wanted)
        self.assertEqual(seen[6], {"line": "reply", "handler": 1, "call": 3, "of": "flush", "answer": "busy", "of_handler": 2, "of_call": 1})
        self.assertEqual(seen[8], {"line": "reply", "handler": 1, "call": 5, "of": "put", "answer": "memory", "number": 3})

    def test_each_line_of_each_command(self):
        text = SHIPPED + "log 1\nold 2\nnone\nentry 1 1 5 2\nended 7\nrecovered 1 2 3\nrecovered 3\ncompacted 1 2 3\ncompact nothing 1\nregion 7\n"
        text += "load puts 2 scans 0 flushes 0 rolls 0\nvalue bytes 4\nrefused script 3 cell-6\nrefused damaged log-1 85\nrefused disagree log-1 log-2 1 1\n"
        text += "refused store old-1\nrefused group 1 2\nrefused position 1 0\nrefused disk\nrefused memory\nrefused usage\nrefused source\n"
        status, seen = self.objects(text)
        self.assertEqual((status, len(seen)), (0, text.count("\n")))
        self.assertEqual(seen[1], {"line": "table", "name": "t"})
        self.assertEqual(seen[2]["tags"], "ab")

    def test_a_line_of_another_program(self):
        for line in ("hello", "entry 1 2", "cell 1 r f q 1 put v t t", "cell 1 r f q 1 put a%4", "reply 1 1 put late 3", ""):
            self.assertEqual(self.objects(line + "\n"), (3, []), line)


class ToScript(Tool):
    def test_what_ship_prints(self):
        one_table = SHIPPED.replace("ship 1 2 1 1 1000 2\n", "ship 1 2 1 1 1000 2\ntable t\n")
        self.assertEqual(self.run_tool("to-script", given=one_table), (0, SCRIPT, ""))

    def test_two_tables_want_two_scripts(self):
        self.assertEqual(self.run_tool("to-script", given=SHIPPED)[:2], (3, ""))
        self.assertEqual(self.run_tool("to-script", "--parts", "out", given=SHIPPED)[0], 0)
        with open(os.path.join(self.room.name, "out-0002.script"), encoding="ascii") as file:
            self.assertEqual(file.read().splitlines()[:4], ["time 1000", "regions 1", "handlers 1", "put 1 1 sync 2"])

    def test_the_front_of_a_damaged_log(self):
        whole = logs.log_bytes([entry(1, 1), entry(1, 2)], 1)
        self.lay(old_1=whole[:-3])
        status, said, cause = self.run_tool("to-script", "hwal-store/old-1")
        self.assertEqual((status, said.count("put 1 1 sync 1")), (7, 1))
        self.assertIn("damaged at byte 75: 1 entry before that", cause)

    def test_logs_are_taken_by_number(self):
        self.lay(log_1=logs.log_bytes([entry(1, 1)], 1), old_2=logs.log_bytes([entry(1, 2)], 2), log_10=logs.log_bytes([entry(1, 3)], 10))
        status, said, cause = self.run_tool("to-script", "hwal-store/log-10", "hwal-store/log-1", "hwal-store/old-2")
        self.assertEqual((status, cause), (0, ""))
        self.assertEqual([line.split()[1] for line in said.splitlines() if line.startswith("cell")], ["r1", "r2", "r3"])

    def test_an_entry_that_comes_twice(self):
        self.lay(log_1=logs.log_bytes([entry(1, 1), entry(1, 2)], 1), edits_1_2=logs.log_bytes([entry(1, 1)], 2))
        status, said, _ = self.run_tool("to-script", "hwal-store/log-1", "hwal-store/edits-1-2")
        self.assertEqual((status, said.count("sync")), (0, 2))
        self.lay(edits_1_2=logs.log_bytes([entry(1, 1, b"g")], 2))
        self.assertEqual(self.run_tool("to-script", "hwal-store/log-1", "hwal-store/edits-1-2")[:2], (3, ""))

    def test_what_is_missing_is_said(self):
        self.lay(log_1=logs.log_bytes([entry(1, 3), entry(1, 6)], 1))
        status, _, cause = self.run_tool("to-script", "hwal-store/log-1")
        self.assertEqual((status, cause), (0, "to-script: region 1: edits 1 to 2 are not there\nto-script: region 1: edits 4 to 5 are not there\n"))
        self.assertEqual(self.run_tool("to-script", given="ship 1 1 1 1 1000 2\ncell 1 r f q 5 put v\n")[0], 7)
        self.assertEqual(self.run_tool("to-script", given="hello\n")[:2], (3, ""))


class FromHbaseShell(Tool):
    def script(self, text, *words):
        status, said, cause = self.run_tool("from-hbase-shell", "--time", "1000", *words, given=text)
        return (status, said.splitlines()) if status == 0 else (status, cause)

    def test_calls(self):
        text = """put 't', 'a', 'f:q', 'it\\'s', 7  # with a comment
            put 't', "m\\x00", 'f:', "", 8
            get 't', 'm'

            deleteall 't', 'a', 'f:q'
            delete 't','a','f:q', 7
            get 't', 'a', {VERSIONS => 3}
            scan 't', {STARTROW => 'b', STOPROW => 'n'}
            flush 't'"""
        calls = ["put 1 1 sync 1", "cell a f q 7 put it's", "put 1 2 sync 1", "cell m%00 f - 8 put -", "get 1 2 m 1", "put 1 1 sync 1", "cell a f q 1000 delete-column -"]
        calls += ["put 1 1 sync 1", "cell a f q 7 delete -", "get 1 1 a 3", "scan 1 1 b n", "scan 1 2 b n", "flush 1 1", "flush 1 2"]
        head = ["time 1000", "regions 2", "handlers 1", "table t"]
        self.assertEqual(self.script(text, "--split", "m"), (0, head + calls))

    def test_time_goes_on(self):
        said = self.script("put 't','r','f:q','v'\ndeleteall 't','r','f:q'\nput 't','r','f:q','w'\n")[1]
        self.assertEqual([line.split()[4] for line in said if line.startswith("cell")], ["1000", "1001", "1002"])

    def test_what_has_no_counterpart(self):
        for line in ("create 't', 'f'", "put 't', 'r', 'f:q'", "put 't', 'r', 'f:q', 'v', 'x'", "delete 't', 'r', 'f:q'", "deleteall 't', 'r'", "get 't'", "put 't', 'r"):
            status, cause = self.script("# a comment\n" + line + "\n")
            self.assertEqual((status, cause[:25]), (3, "from-hbase-shell: line 2:"), line)
        self.assertEqual(self.script("flush 't'\nflush 'u'\n")[0], 3)
        self.assertEqual(self.script("get 't', 'r', {COLUMN => 'f:q'}\n")[0], 3)


class Help(Tool):
    def test_each_tool_has_words(self):
        for name in ("agree", "hwal-stat", "hwal-backup", "hwal-json", "to-script", "from-hbase-shell", "headline", "sizes", "names", "record-gate"):
            status, said, _ = self.run_tool(name, "--help")
            self.assertEqual(status, 0, name)
            self.assertIn(f"tools/{name}", said)


if __name__ == "__main__":
    unittest.main()
