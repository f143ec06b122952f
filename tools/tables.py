"""A table of a page in docs/ that a tool makes: written into the page, or compared with what stands there."""
from records import ROOT


def keep(tool, page, head, rows, check):
    """The table stands where its first line does. With check nothing is written, and it is an error where the page has another."""
    path = ROOT / page
    made = [*head, *rows]
    lines = path.read_text().splitlines()
    start = lines.index(head[0])
    end = next(at for at in range(start, len(lines) + 1) if at == len(lines) or not lines[at].startswith("|"))
    if not check:
        path.write_text("\n".join([*lines[:start], *made, *lines[end:]]) + "\n")
    elif lines[start:end] != made:
        raise SystemExit(f"{tool}: {page} has another table than the program's answers give")
    print(f"{tool}: the {len(made) - len(head)} rows of {page} are what the program's answers give")
