"""The command at a terminal: colours, a screenful, progress, Ctrl-C and closed pipes."""

import fcntl
import os
import pty
import re
import select
import signal
import struct
import subprocess
import termios
import time

from command import ENVIRONMENT, PROGRAM, ROOT, SAMPLE, CommandTest

COLOUR = re.compile(r"\x1b\[\d*m")
# Enough names for the library to work on for a while.
SLOW_LIST = 400_000


def start(*arguments, stdout=subprocess.PIPE, **environment):
    """The command started with pipes for all three streams."""
    streams = {"stdin": subprocess.PIPE, "stdout": stdout, "stderr": subprocess.PIPE}
    return subprocess.Popen([*PROGRAM, *map(str, arguments)], cwd=ROOT, env={**ENVIRONMENT, **environment}, **streams)


def at_terminal(arguments, lines=50, columns=80, **environment):
    """The command started at a pseudo-terminal of that size; gives the process and the terminal's other side."""
    ours, theirs = pty.openpty()
    fcntl.ioctl(theirs, termios.TIOCSWINSZ, struct.pack("HHHH", lines, columns, 0, 0))
    settings = {**ENVIRONMENT, "TERM": "xterm", **environment}
    for name in ("COLUMNS", "LINES"):
        settings.pop(name, None)
    streams = {"stdin": theirs, "stdout": theirs, "stderr": theirs}
    child = subprocess.Popen([*PROGRAM, *map(str, arguments)], cwd=ROOT, env=settings, start_new_session=True, **streams)
    os.close(theirs)
    return child, ours


def read_all(terminal, until=None, seconds=60):
    """What is written to a terminal, to its end or until a text is in it."""
    written, deadline = b"", time.monotonic() + seconds
    while time.monotonic() < deadline and (until is None or until not in written):
        if select.select([terminal], [], [], 0.1)[0]:
            try:
                octets = os.read(terminal, 65536)
            except OSError:  # the other side is closed
                break
            if not octets:
                break
            written += octets
    return written


def show(arguments, **settings):
    """All that the command shows at a terminal, and its exit status."""
    child, terminal = at_terminal(arguments, **settings)
    written = read_all(terminal)
    os.close(terminal)
    return written.decode().replace("\r\n", "\n"), child.wait(60)


class Terminal(CommandTest):
    def test_colours_at_a_terminal_alone(self):
        shown, status = show(["shared", *SAMPLE])
        self.assertEqual(status, 1)
        self.assertIn("\x1b[1mShared names: 3 (2 met only by another spelling)\x1b[0m\n", shown)
        plain = self.answer(1, "shared", *SAMPLE)
        self.assertEqual(COLOUR.sub("", shown), plain)
        self.assertNotIn("\x1b", plain)

    def test_no_color(self):
        self.assertNotIn("\x1b", show(["shared", *SAMPLE], NO_COLOR="1")[0])
        self.assertNotIn("\x1b", show(["shared", *SAMPLE], TERM="dumb")[0])
        self.assertIn("\x1b", show(["shared", *SAMPLE], NO_COLOR="")[0])

    def test_wide_and_combining_characters_are_aligned(self):
        rows = self.answer(1, "shared", *SAMPLE).splitlines()[6:12]
        self.assertEqual((rows[0].split()[1], rows[5].split()[1]), ("BERYL", "海燕"))
        # 海燕 takes two columns more than it has characters, and Jose with its mark one less.
        self.assertEqual(rows[0].index(" 9"), rows[5].index(" 12") + 2)
        self.assertEqual(rows[3].index(" 1"), rows[4].index(" 4") - 1)
        self.assertEqual(rows[3].index(" 1"), rows[5].index(" 7") + 2)

    def many(self, names=500):
        """Two lists that share all names, hold each twice, and have broken and alike ones too."""
        first = [b"name %d" % (number // 2) for number in range(2 * names)]
        alike = [b"alike %d" % number for number in range(names)]
        broken = [b"\xff%d" % number for number in range(names)]
        return self.file("first", first + alike + broken), self.file("second", first + [name + b" " for name in alike] + broken)

    def test_a_screenful(self):
        lists = self.many()
        for height, columns, most in ((24, 80, 24), (50, 80, 50), (10, 80, 24), (33, 132, 33)):
            shown, _ = show(["shared", *lists], lines=height, columns=columns)
            lines = COLOUR.sub("", shown).splitlines()
            # Only the totals may take more than a line of the terminal; its last one is the prompt's.
            self.assertLessEqual(max(map(len, lines[:-1])), columns)
            self.assertIn(len(lines) + (len(lines[-1]) > columns), (most - 1, most - 2))
            titles = ["Shared names: 1,000 ", "first list: 500;", "second list: 500;", "Broken names: 1,000 ", "look at: 500 "]
            self.assertTrue(all(title in "\n".join(lines) for title in titles), lines)
            self.assertIn("(a screenful: --all shows what is left out)", lines)

    def test_what_is_left_out_is_counted(self):
        lists = self.many()
        for arguments in (["shared", *lists], ["duplicates", lists[0]]):
            lines = self.answer(1, *arguments).splitlines()
            self.assertLess(len(lines), 40)
            titles = re.findall(r"^(\w.*?): ([\d,]+)\b.*?; ([\d,]+) left out$", "\n".join(lines), re.M)
            self.assertGreaterEqual(len(titles), 2)
            everything = self.answer(1, *arguments, "--all")
            self.assertNotIn("left out", everything)
            for title, total, left_out in titles:
                shown = self.entries(lines, title)
                self.assertEqual(len(shown) + int(left_out.replace(",", "")), int(total.replace(",", "")), title)
                self.assertEqual(len(self.entries(everything.splitlines(), title)), int(total.replace(",", "")), title)

    @staticmethod
    def entries(lines, title):
        """The lines under a title that begin an entry: all of a section without numbers, else those with one."""
        start = next(place for place, line in enumerate(lines) if line.startswith(title)) + 1
        section = []
        while lines[start].startswith("  "):
            section.append(lines[start])
            start += 1
        return section if title.startswith("Broken") else [line for line in section if re.match(r" +\d+  ", line)]

    def test_a_name_that_is_too_wide_is_cut(self):
        wide = self.file("a", ["é".encode() * 2000])
        shown = self.answer(1, "shared", wide, wide)
        self.assertLessEqual(max(map(len, shown.splitlines())), 80)
        self.assertIn("é…", shown)
        self.assertIn("é" * 2000, self.answer(1, "shared", wide, wide, "--all"))

    def test_a_locale_without_the_characters(self):
        shown = self.answer(1, "shared", *SAMPLE, LC_ALL="C", PYTHONIOENCODING="", PYTHONUTF8="0", PYTHONCOERCECLOCALE="0")
        self.assertEqual(shown, self.answer(1, "shared", *SAMPLE))
        shown, status = show(["shared", *SAMPLE], LC_ALL="C", PYTHONIOENCODING="ascii")
        self.assertEqual(status, 1)
        self.assertIn("Jos\\xe9", shown)


class Pipes(CommandTest):
    def assert_ends(self, child, status, words=b""):
        """A child ends with that status, and with these words alone on standard error."""
        with child:
            self.assertEqual((child.stderr.read(), child.wait(60)), (words, status))

    def test_a_closed_pipe_is_no_traceback(self):
        names = self.file("a", [b"name %d" % number for number in range(50_000)])
        parts = [["shared", names, names, "--all"], ["shared", names, names, "--format", "jsonl"], ["keys", names]]
        for part, status in zip(parts, (1, 1, 0)):
            child = start(*part)
            child.stdout.read(100)
            child.stdout.close()
            self.assert_ends(child, status)

    def test_help_into_a_closed_pipe(self):
        child = start("shared", "--help")
        child.stdout.close()
        self.assert_ends(child, 0)

    def test_a_full_disk_is_an_error(self):
        with open("/dev/full", "wb") as full:
            child = start("shared", *SAMPLE, stdout=full)
        self.assert_ends(child, 2, b"mundeziwa: the answer can't be written: No space left on device\n")

    def test_standard_output_that_is_closed(self):
        arguments = " ".join([*PROGRAM, "shared", *SAMPLE])
        ended = subprocess.run(f"{arguments} >&-", shell=True, cwd=ROOT, env=ENVIRONMENT, stderr=subprocess.PIPE, timeout=60)
        self.assertEqual((ended.returncode, ended.stderr), (1, b""))


class Interruptions(CommandTest):
    def handle(self, handler):
        """Takes interruptions so until the test ends. What is started then has them at their default, or ignores them too."""
        self.addCleanup(signal.signal, signal.SIGINT, signal.signal(signal.SIGINT, handler))

    def setUp(self):
        super().setUp()
        # In the background of a shell they are ignored, and the tests may run there.
        self.handle(signal.default_int_handler)

    def test_interruptions_that_are_ignored(self):
        names = self.file("a", [b"a longer name, so that few of them fill a pipe: %d" % number for number in range(50_000)])
        self.handle(signal.SIG_IGN)
        with start("keys", names) as child:
            written = child.stdout.read(10_000)
            child.send_signal(signal.SIGINT)
            written += child.stdout.read()
            self.assertEqual((child.wait(60), child.stderr.read()), (0, b""))
        self.assertEqual(written.count(b"\n"), 50_000)

    def test_ctrl_c_while_it_writes(self):
        names = self.file("a", [b"a longer name, so that few of them fill a pipe: %d" % number for number in range(50_000)])
        for unbuffered in ("", "1"):
            with start("keys", names, "--format", "jsonl", PYTHONUNBUFFERED=unbuffered) as child:
                written = child.stdout.read(10_000)
                time.sleep(1)  # by then the pipe is full, and the command waits in the middle of a line
                child.send_signal(signal.SIGINT)
                written += child.stdout.read()
                self.assertEqual((child.wait(60), child.stderr.read()), (130, b""))
            self.assertTrue(written.endswith(b"}\n"), written[-100:])
            self.assertLess(written.count(b"\n"), 50_000)

    def test_ctrl_c_while_it_reads(self):
        with start("keys", "-") as child:
            time.sleep(1)
            child.send_signal(signal.SIGINT)
            self.assertEqual((child.wait(60), child.stdout.read(), child.stderr.read()), (130, b"", b""))

    def test_progress_and_ctrl_c_at_a_terminal(self):
        child, terminal = at_terminal(["keys", "-"])
        written = read_all(terminal, until=b"reading -")
        self.assertIn(b"mundeziwa: reading -", written)
        os.killpg(child.pid, signal.SIGINT)
        written += read_all(terminal)
        os.close(terminal)
        self.assertEqual(child.wait(60), 130)
        # The last line was cleared, and nothing but its end follows.
        self.assertTrue(written.endswith(b"\r\x1b[K\r\n"), written[-40:])

    def test_ctrl_c_while_the_library_works(self):
        names = self.file("a", [b"%d" % (number * 7919 % SLOW_LIST) for number in range(SLOW_LIST)])
        child, terminal = at_terminal(["shared", names, names])
        written = read_all(terminal, until=b"comparing", seconds=20)
        os.killpg(child.pid, signal.SIGINT)
        written += read_all(terminal)
        os.close(terminal)
        # A quick machine may have ended before; what matters is that it ends, and how.
        self.assertIn(child.wait(60), (130, 1))
        self.assertNotIn(b"Traceback", written)

    def test_no_progress_where_it_is_no_terminal(self):
        with start("keys", "-") as child:
            time.sleep(1.6)
            written = child.communicate(b"a\n", timeout=60)
        self.assertEqual(written, (b"41\ta\n", b""))
