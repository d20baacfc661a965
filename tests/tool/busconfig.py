#!/usr/bin/env python3
"""Tests of tools/busconfig: stored outputs of the files in busconfig/, and files that are made here."""

import os
import subprocess
import tempfile
import unittest
from pathlib import Path

HERE = Path(__file__).resolve().parent / "busconfig"
SCRIPT = HERE.parent.parent.parent / "tools" / "busconfig"


def run(*words, folder=HERE, stdin=b""):
    """The status, the lines on standard output and those on standard error."""
    done = subprocess.run([SCRIPT, *words], cwd=folder, input=stdin, capture_output=True, check=False)
    return done.returncode, done.stdout.decode().splitlines(), done.stderr.decode().splitlines()


def policy(rules, head='context="default"'):
    return f"<busconfig><policy {head}>\n{rules}\n</policy></busconfig>".encode()


class Stored(unittest.TestCase):
    def stored(self, name):
        return (HERE / name).read_text().splitlines()

    def test_good_files(self):
        found = run("--users", "cabinet.users", "--ignore-includes", "cabinet.conf", "service.conf")
        self.assertEqual(found, (0, self.stored("cabinet.policy"), []))

    def test_owner_comes_first_and_options_may_stand_anywhere(self):
        found = run("service.conf", "--owner", "fans", "--users=cabinet.users", "service.conf")
        self.assertEqual(found, (0, self.stored("service.policy"), []))

    def test_every_refusal_is_told_and_nothing_is_printed(self):
        found = run("--users", "cabinet.users", "service.conf", "refused.conf")
        self.assertEqual(found, (1, [], self.stored("refused.err")))


class Made(unittest.TestCase):
    """Files that are made here are given on standard input, whose name is -."""

    def rules(self, content, *words):
        status, out, err = run(*words, "-", stdin=content)
        self.assertEqual((status, err), (0, []))
        return [line for line in out if not line.startswith("#")]

    def refused(self, content, *words):
        status, out, err = run(*words, "-", stdin=content)
        self.assertEqual((status, out), (1, []))
        return err

    def test_names_at_their_longest(self):
        longest = "a." + "b" * 253
        self.assertEqual(self.rules(policy(f'<allow own="{longest}"/>')), [f"own default allow name {longest}  # -:2"])
        self.assertEqual(len(self.refused(policy(f'<allow own="{longest}b"/>'))), 1)
        member = "M" * 255
        rule = f'<allow send_path="/" send_member="{member}"/>'
        self.assertEqual(self.rules(policy(rule)), [f"transaction default allow send any path=/ member={member}  # -:2"])
        self.assertEqual(len(self.refused(policy(rule.replace("M", "MM", 1)))), 1)

    def test_names_that_our_rules_take(self):
        for name in ("-a.-", "_._", "a-b.c9"):
            self.assertEqual(self.rules(policy(f'<deny own="{name}"/>')), [f"own default deny name {name}  # -:2"])
        for name in ("a", "a..b", ".a.b", "a.b.", "a.9b", "a b.c", "a.b#c", "a.b\u00e4", "*.a", "a.*"):
            self.assertEqual(len(self.refused(policy(f'<deny own="{name}"/>'))), 1, name)

    def test_ids_at_their_highest(self):
        self.assertEqual(self.rules(policy('<allow user="4294967295"/>')), ["connect default allow uid 4294967295  # -:2"])
        self.assertEqual(self.refused(policy('<allow group="4294967296"/>')), ["-:2: 4294967296 is no number up to 4294967295"])
        self.assertEqual(self.rules(policy('<deny own="*"/>', 'group="007"')), ["own group 7 deny any  # -:2"])

    def test_a_section_has_a_limit(self):
        for rule, section, most in (('<allow user="*"/>', "connect", 256), ('<allow own="*"/>', "own", 256),
                                    ('<allow send_type="signal"/>', "transaction", 512)):
            self.assertEqual(len(self.rules(policy(rule * most))), most)
            told = f"{most + 1} {section} rules come of this, and {most} are the most"
            self.assertEqual(self.refused(policy(rule * (most + 1))), [told])

    def test_no_text_of_a_file_becomes_a_rule(self):
        tricky = '<busconfig><limit name="a&#10;own default allow any&#13;&#x2028;b">x</limit></busconfig>'
        self.assertEqual(self.rules(tricky.encode()), [])
        status, out, _ = run("a\nown default allow any", folder=HERE)
        self.assertEqual((status, out), (1, []))

    def test_a_file_name_becomes_no_rule(self):
        with tempfile.TemporaryDirectory() as folder:
            name = os.path.join(folder, "a\nown default allow any\n.conf")
            Path(name).write_bytes(policy('<deny own="*"/>'))
            status, out, _ = run(name)
            self.assertEqual(status, 0)
            self.assertEqual([line.split("  #")[0] for line in out if not line.startswith("#")], ["own default deny any"])

    def test_broken_xml(self):
        told = ["-:2: a <policy> has one attribute: context, user or group", "-:3: broken XML, mismatched tag"]
        self.assertEqual(self.refused(b"<busconfig>\n<policy>\n</busconfig>"), told)
        self.assertEqual(self.refused(b""), ["-:1: broken XML, no element found"])
        self.assertEqual(self.refused(b"\n\n<a"), ["-:3: broken XML, unclosed token"])
        self.assertEqual(self.refused(policy('<deny own="a.b"\nown="a.c"/>')), ["-:3: broken XML, duplicate attribute"])
        self.assertEqual(self.refused(b"<servers>\n</servers>"), ["-:1: a policy file is a <busconfig>, not a <servers>"])
        self.assertEqual(self.refused(b"<busconfig>\n\xff</busconfig>"), ["-:2: this is no UTF-8"])

    def test_entities_are_not_left_out_silently(self):
        doctype = b'<!DOCTYPE busconfig SYSTEM "busconfig.dtd">\n'
        told = ["-:3: there is no entity x"]
        self.assertEqual(self.refused(doctype + policy('<deny own="a.b&x;"/>')), told)
        self.assertEqual(self.refused(doctype + policy('<!-- &y; --><deny own="a.b"></deny>&x;')), told)
        self.assertEqual(self.rules(doctype + policy('<deny own="a&#46;b&#x2e;c"/>')), ["own default deny name a.b.c  # -:3"])

    def test_a_file_declares_nothing_of_its_own(self):
        for inner in ('<!ENTITY x "a.b">', '<!ENTITY x SYSTEM "/etc/passwd">', '<!ATTLIST deny own CDATA "*">'):
            content = f"<!DOCTYPE busconfig [{inner}]>\n".encode() + policy("<deny/>")
            told = ["-:1: the document type declares things of its own, which are not read here"]
            self.assertEqual(self.refused(content), told)

    def test_a_file_has_a_limit(self):
        content = policy('<deny own="*"/>')
        full = content + b" " * ((1 << 20) - len(content))
        self.assertEqual(len(self.rules(full)), 1)
        self.assertEqual(self.refused(full + b" "), ["-: longer than 1048576 bytes, which is the most that is read"])

    def test_large_files_take_little_time(self):
        lines = b"<busconfig>" + b"\n" * 900000 + b"</busconfig>"
        self.assertEqual(self.rules(lines), [])
        self.assertEqual(len(self.refused(b"<busconfig>" + b"<fork>" * 150000)), 150000)


class Users(unittest.TestCase):
    def test_faults_are_told_by_line(self):
        with tempfile.TemporaryDirectory() as folder:
            Path(folder, "users").write_text("user a 1\nuser a 2\ngroup a 3\nuser b\nuser c x\nuser d 4294967296\nother e 1\nuser f 1 2\n")
            status, out, err = run("--users", "users", "-", folder=folder)
            wanted = "wanted user NAME NUMBER or group NAME NUMBER"
            self.assertEqual((status, out), (1, []))
            self.assertEqual(err, ["users:2: user a is given twice", f"users:4: {wanted}", f"users:5: {wanted}",
                                   "users:6: 4294967296 is no number up to 4294967295", f"users:7: {wanted}", f"users:8: {wanted}"])

    def test_names_of_this_machine_do_not_count_beside_a_file(self):
        content = policy('<allow user="root"/>')
        status, out, _ = run("-", stdin=content)
        self.assertEqual((status, out[-1]), (0, "connect default allow uid 0  # -:2"))
        status, _, err = run("--users", "/dev/null", "-", stdin=content)
        self.assertEqual((status, err), (1, ["-:2: there is no user root in the file of --users"]))

    def test_an_owner_that_is_nobody(self):
        status, out, err = run("--owner", "nobody at all", "-", stdin=policy(""))
        self.assertEqual((status, out, err), (1, [], ["there is no user nobody at all on this machine"]))


class Use(unittest.TestCase):
    def test_help(self):
        status, out, _ = run("--help")
        self.assertEqual(status, 0)
        self.assertIn("  aygeshunt busconfig fans.conf > fans.policy", out)

    def test_wrong_use(self):
        for words in ((), ("--wrong", "cabinet.conf"), ("--users",), ("--ignore", "cabinet.conf")):
            self.assertEqual(run(*words)[0], 2, words)

    def test_files_that_are_not_there(self):
        found = run("--users", "cabinet.users", "service.conf", "absent.conf", ".")
        self.assertEqual(found, (1, [], ["absent.conf: No such file or directory", ".: Is a directory"]))

    def test_output_that_fails(self):
        with open("/dev/full", "wb") as full:
            done = subprocess.run([SCRIPT, "--users", "cabinet.users", "service.conf"], cwd=HERE, stdout=full, stderr=subprocess.PIPE, check=False)
        self.assertEqual((done.returncode, done.stderr), (1, b"standard output: No space left on device\n"))


if __name__ == "__main__":
    unittest.main()
