"""Wrong edits, as files of crates/NAME/more-edits/: what they replace, and the functions that they change."""
import os
import re

FUNCTION = re.compile(r"( *)(?:pub(?:\(\w+\))? )?(?:const )?fn (\w+)")
IMPL = re.compile(r"impl(?:<.*?>)? (?:(?:\w+::)*(\w+)(?:<.*>)? for )?(\w+)")


def read(folder, file):
    """The text of a file of a crate."""
    with open(os.path.join(folder, file), encoding="utf-8") as it:
        return it.read()


def put(folder, texts):
    """Gives files of a crate these texts."""
    for file, text in texts.items():
        with open(os.path.join(folder, file), "w", encoding="utf-8") as it:
            it.write(text)


def module_of(folder, type_name, file):
    """The file that declares a type, or else this one: rt names methods by the module of their type."""
    for name in sorted(os.listdir(os.path.join(folder, "src"))):
        if re.search(rf"(struct|enum|trait) {type_name}\b", read(folder, f"src/{name}")):
            return f"src/{name}"
    return file


def function_at(folder, file, text, place):
    """The function whose text has this place, by the name that rt prints, if it is in one."""
    lines = text[: text.find("\n", place)].split("\n")
    starts = [(at, it) for at, it in enumerate(map(FUNCTION.match, lines)) if it]
    if not starts or f"{starts[-1][1][1]}}}" in lines[starts[-1][0] :]:
        return []
    margin, name = starts[-1][1].groups()
    block = next((it for it in map(IMPL.match, reversed(lines)) if it), None)
    if margin and block:
        name = f"{block[2]}{block[1] or ''}::{name}"
        file = module_of(folder, block[2], file)
    path = [os.path.basename(folder), *file.removesuffix(".rt").split("/")[1:], name]
    return ["::".join(it for it in path if it != "lib")]


def functions_at(folder, file, place):
    """The function whose text has this place, or where it is in a constant, those that name the constant."""
    text = read(folder, file)
    found = function_at(folder, file, text, place)
    constants = re.findall(r"(?:const|static) (\w+)", text[: text.find("\n", place)])
    if found or not constants:
        return found
    for name in sorted(os.listdir(os.path.join(folder, "src"))):
        text = read(folder, f"src/{name}")
        for use in re.finditer(rf"\b{constants[-1]}\b", text):
            found += function_at(folder, f"src/{name}", text, use.start())
    return found


class Edit:
    """A wrong edit: its name, the texts that it replaces, and the functions that it changes."""

    def __init__(self, folder, name):
        self.folder, self.name, self.pairs, self.functions = folder, name, [], set()
        for line in read(folder, f"more-edits/{name}").split("\n"):
            if line.startswith("file: "):
                file = line[6:].strip()
            elif line.startswith("old: "):
                old = line[5:]
            elif line.startswith("new:"):
                self.pairs.append((file, old, line[4:].removeprefix(" ")))
                place = max(read(folder, file).find(old), 0)
                self.functions.update(functions_at(folder, file, place))

    def apply(self, texts):
        """The texts of files with this edit too, or none where an old text is not there exactly once."""
        texts = dict(texts)
        for file, old, new in self.pairs:
            text = texts.get(file) or read(self.folder, file)
            if text.count(old) != 1:
                return None
            texts[file] = text.replace(old, new)
        return texts


def group(edits):
    """Groups of edits of different functions whose texts do not meet; one of no function is alone."""
    groups = []
    for edit in edits:
        for members, texts in groups if edit.functions else []:
            more = edit.apply(texts)
            if more and all(it.functions and it.functions.isdisjoint(edit.functions) for it in members):
                members.append(edit)
                texts.update(more)
                break
        else:
            groups.append(([edit], edit.apply({})))
    return [members for members, _ in groups]
