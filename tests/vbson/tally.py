"""What the tests of the library share: counts of what passed, programs that are run, and the examples of the pages."""
import re
import shutil
import subprocess
from pathlib import Path

ROOT = Path(__file__).resolve().parents[2]
LANGUAGES = ROOT / "languages"
# The page for the programmers of each language.
PAGES = {it: ROOT / f"docs/{it}.md" for it in ("c", "rust", "python")}
# The most seconds of a command, which may prove or compile beside others.
LONGEST_SECONDS = 1800


class Tally:
    def __init__(self):
        self.passed = self.failed = 0

    def told(self, name, fault=None):
        if fault is None:
            self.passed += 1
        else:
            self.failed += 1
            print(f"FAILED: {name}: {fault}"[:2000])

    def counted(self, name, ran):
        """A program whose last line is 'N passed, M failed'."""
        last = re.fullmatch(r"(\d+) passed, (\d+) failed", ran.stdout.rstrip("\n").rpartition("\n")[2])
        if not last or (ran.returncode != 0) != (int(last[2]) > 0):
            self.told(name, f"it ended with status {ran.returncode}: {ran.stdout}{ran.stderr}")
            return
        print("".join(f"{line}\n" for line in ran.stdout.split("\n")[:-2]), end="")
        self.passed += int(last[1])
        self.failed += int(last[2])


def run(words, **how):
    return subprocess.run(words, capture_output=True, text=True, timeout=LONGEST_SECONDS, stdin=subprocess.DEVNULL, **how)


def wants_status_0(tally, name, words, **how):
    """Whether the command succeeded, which is printed."""
    ran = run(words, **how)
    said = f"status {ran.returncode}: {ran.stdout[-800:]}{ran.stderr[-800:]}"
    tally.told(name, None if ran.returncode == 0 else said)
    return ran if ran.returncode == 0 else None


def has(tool):
    if shutil.which(tool):
        return True
    print(f"not tried, since there is no command '{tool}': what needs it")
    return False


def differs(ran, wanted):
    is_right = (ran.returncode, ran.stdout) == (0, wanted)
    return None if is_right else f"{ran.stdout}{ran.stderr} with status {ran.returncode}"


def answers_to(lines, words, **how):
    given = "".join(f"{line}\n" for line in lines)
    return subprocess.run(words, input=given, capture_output=True, text=True, timeout=LONGEST_SECONDS, **how)


def judge_lines(tally, language, cases, words, **how):
    """A program's answer to each line."""
    ran = answers_to([line for _, line, _ in cases], words, **how)
    answers = ran.stdout.splitlines()
    tally.told(f"documents from {language}", None if ran.returncode == 0 and len(answers) == len(cases) else f"{ran.stderr[-800:]}")
    for (name, _, wanted), answer in zip(cases, answers):
        tally.told(f"{name} from {language}", None if answer == wanted else f"{answer} and not {wanted}")


def blocks(file, language):
    return re.findall(rf"(?ms)^```{language}\n(.*?)^```$", file.read_text())


def example(language):
    return "".join(blocks(PAGES[language], language))


def printed_by(block, mark):
    return "".join(f"{it}\n" for it in re.findall(rf"(?m)^.*(?:print|puts).*{mark} (.*?)(?: \*/)?$", block))
