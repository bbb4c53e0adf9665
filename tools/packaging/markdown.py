"""The repository's documents as pages for `man`."""
import re


def blocks(text):
    """The blocks of a document: pairs of a kind (heading, code, table, list, paragraph) and lines."""
    found, lines = [], text.splitlines()
    while lines:
        line = lines.pop(0)
        if line.startswith("```"):
            end = lines.index("```")
            found.append((f"code {line[3:]}", lines[:end]))
            del lines[:end + 1]
        elif line.startswith("#"):
            found.append(("heading", [line.lstrip("# ")]))
        elif line:
            kind = "table" if line.startswith("|") else "list" if line.startswith("- ") else "paragraph"
            part = [line]
            while lines and lines[0] and not lines[0].startswith(("```", "#")) and (kind != "paragraph" or not lines[0].startswith("|")):
                part.append(lines.pop(0))
            found.append((kind, part))
    return found


def typed(text):
    """A text as it stands: what means something to roff is escaped."""
    text = text.replace("\\", "\\e").replace("-", "\\-")
    return "\\&" + text if text.startswith((".", "'")) else text


def inline(text):
    """A text with code, links and stresses."""
    parts = re.split(r"(`[^`]+`)", text)
    for place, part in enumerate(parts):
        if place % 2:
            # A letter that stands for a text before the code is kept apart from it.
            parts[place] = " " * parts[place - 1][-1:].isalnum() + f"\\fB{typed(part[1:-1]).replace(chr(92) + 'e|', '|')}\\fR"
        else:
            part = re.sub(r"\[([^]]*)\]\([^)]*\)", r"\1", part)
            part = re.sub(r"\\([*|_])", lambda it: {"*": "\1", "|": "|", "_": "_"}[it[1]], part)
            part = re.sub(r"\*\*?([^*]+)\*\*?", "\2\\1\3", typed(part))
            parts[place] = part.replace("\1", "*").replace("\2", "\\fI").replace("\3", "\\fR")
    return "".join(parts)


def as_paragraph(lines):
    text = inline(" ".join(it.strip() for it in lines))
    return [".PP", "\\&" + text if text.startswith((".", "'")) else text]


def as_code(lines):
    lines = [re.sub(r"^\$ (cd examples && )?\.\.?/saber ", r"$ \1saber ", it) for it in lines]
    return [".PP", ".RS 4", ".nf", *[typed(it) or "\\&" for it in lines], ".fi", ".RE"]


def as_list(lines):
    items = re.split(r"^- ", "\n".join(lines), flags=re.M)[1:]
    return [line for item in items for line in (".IP \\(bu 2", inline(" ".join(it.strip() for it in item.splitlines())))]


def cells(line):
    return [it.strip() for it in re.split(r"(?<!\\)\|", line.strip().strip("|"))]


def as_table(lines):
    """Each row as an entry: its first cell, and the others with the heads of their columns where there are several."""
    heads, _, *rows = map(cells, lines)
    page = []
    for first, *rest in rows:
        named = [f"{head}: {cell}" if head and len(rest) > 1 else cell for head, cell in zip(heads[1:], rest) if cell]
        page += [".TP", inline(first) or "\\&", inline("; ".join(named)) or "\\&"]
    return page


AS = {"paragraph": as_paragraph, "list": as_list, "table": as_table}


def page_of(text):
    """The lines of a page, with sections for the headings; the title of the document is left out."""
    page = []
    for kind, lines in blocks(text)[1:]:
        if kind == "heading":
            page.append(".SH " + typed(lines[0]).upper())
        else:
            page += as_code(lines) if kind.startswith("code") else AS[kind](lines)
    return page
