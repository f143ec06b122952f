"""Records for tools/pictures, tools/bells and tools/planning, and what the replay program answers to them (docs/REPLAY.md and the page that it names)."""
import subprocess
from pathlib import Path

ROOT = Path(__file__).resolve().parent.parent

# Bytes of each field of a record.
ENVELOPE = (2, 2, 1, 2)
SOURCE = (1, 4, 2, 1, 4)
WIDTHS = {
    "10": (1, 4, 2, 1, 1, 1), "70": (1, 4, 2, 1, 1, 1), "11": (4, 2), "13": (2, *ENVELOPE, 1), "14": (2, 2, *ENVELOPE), "21": (2,), "30": (),
    "73": (2, 2, *ENVELOPE),
    "48": (*ENVELOPE, 4, 2, 2), "60": (*SOURCE, 3, 2), "61": (*SOURCE, *ENVELOPE, 1, 1, 1, 3, 1, 2),
    "80": (4, 4, 2), "81": (4,), "84": (2, 4), "85": (2, 4, 4), "86": (1, 1, 1, 1),
}
TONE, POLYBLEP, FM = 1, 2, 3
PHASES = ["attack", "decay", "sustain", "release", "idle"]
AT_ONCE = (0, 0, 255, 65535)  # an envelope at level 255 from the first frame, whose release takes a minute


def record(code, *fields):
    return code + "".join(f"{value:0{2 * width}X}" for value, width in zip(fields, WIDTHS[code], strict=True))


def replay(script):
    """The lines that the program answers to a script, in which no record is bad."""
    program = ROOT / "target/bin/replay"
    if not program.exists():
        raise SystemExit("records: the program target/bin/replay is not built; `make` builds it")
    run = subprocess.run([program], input="\n".join(script) + "\n", capture_output=True, text=True, check=True)
    answers = run.stdout.splitlines()
    if "FFFF" in answers:
        raise SystemExit("records: the program calls a record bad")
    return answers


def accepted(script):
    """The second lines of records that answer `00` and a line."""
    answers = replay(script)
    if answers[::2] != ["00"] * len(script):
        raise SystemExit("records: the program refuses a record")
    return answers[1::2]


def signed_byte(digits):
    return int.from_bytes(bytes.fromhex(digits), "big", signed=True)


def samples(line, count):
    """The samples of records 60 and 61: each is `00` and the sample."""
    return [signed_byte(line[at + 2:at + 4]) for at in range(0, 4 * count, 4)]


def fields(line):
    """The fields of a dump, 16 digits each."""
    return [int(line[at:at + 16], 16) for at in range(0, len(line) - 15, 16)]


# A voice's fields are counted from their end, because a source has more fields or fewer by its kind.

def phase_of(voice):
    return PHASES[voice[-9]]


def priority_of(voice):
    return voice[-3]


def audible(voice):
    """Source active or envelope not idle; an idle source has no active flag, and its number, 0, stands there."""
    return voice[-14] != 0 or phase_of(voice) != "idle"


def entry(number, hertz):
    """A sine tone that never ends: id, kind, flags, gain, an unread byte, param0, param1, offset, length."""
    values = [(number, 2), (0, 1), (0, 1), (255, 1), (0, 1), (hertz, 2), (0, 2), (0, 4), (0, 2)]
    return b"".join(value.to_bytes(width, "little") for value, width in values)


def bank(tones):
    """Ten bytes that are not read, then an entry for each frequency, ids from 1."""
    return bytes(10) + b"".join(entry(number, hertz) for number, hertz in enumerate(tones, 1))


def engine(voices, rate, tones, opening="70"):
    """Records that open a box under LowestPriorityOldest, one of the present rules unless said otherwise, and set its bank."""
    return [record(opening, voices, rate, 1000, 0, 255, 0), "12" + bank(tones).hex().upper(), record("11", rate, len(tones))]
