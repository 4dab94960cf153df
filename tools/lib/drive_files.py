"""The folders of one drive of a store, as someone sees and hurts them who knows docs/FORMATS.md alone."""

import pathlib
import shutil

GROUP = 200


def spelling(name):
    """The path of a name's file below the folder that has it."""
    digits = name.encode().hex()
    groups = [digits[at : at + GROUP] for at in range(0, len(digits), GROUP)]
    return "_/".join(groups)


def name_of(folder, file):
    """The name of a file, or None where its path spells none."""
    path = file.relative_to(folder).as_posix()
    if path.startswith("loose/"):
        return None
    try:
        name = bytes.fromhex(path.replace("_/", "")).decode()
    except ValueError:
        return None
    return name if spelling(name) == path else None


def slot_of(text):
    """The slot of a text."""
    slot = 0
    for byte in text.encode():
        slot = (31 * slot + byte) % 64
    return slot


class Drive:
    """A drive's folder, with those of its slots and of its data."""

    def __init__(self, folder):
        self.folder, self.index = folder, folder.name
        self.elsewhere = folder.with_name(f"away{folder.name}")

    def files(self, front):
        """The files whose names begin so, by their names."""
        found = {}
        for folder in sorted(self.folder.iterdir()):
            for file in folder.rglob("*"):
                name = name_of(folder, file) if file.is_file() else None
                if name is not None and name.startswith(front):
                    found[name] = file
        return dict(sorted(found.items()))

    def flip(self, front, dice):
        """Turns the bits of one byte of one of these files round, and answers whether there is one that has a byte."""
        files = [file for file in self.files(front).values() if file.stat().st_size]
        if not files:
            return False
        flip_byte(dice.choice(files), dice.random())
        return True

    def flip_all(self, front):
        """Turns one byte of each of these files round."""
        for file in self.files(front).values():
            if file.stat().st_size:
                flip_byte(file, 0)

    def flip_longest(self, front, part):
        """Turns one byte of the longest of these files round, which has this part of it before it."""
        flip_byte(max(self.files(front).values(), key=lambda file: file.stat().st_size), part)

    def flip_name(self, name):
        """Turns one byte of the file of this name round."""
        flip_byte(self.files(name)[name], 0.5)

    def remove(self, front):
        """Removes these files, and answers how many there were."""
        files = self.files(front).values()
        for file in files:
            file.unlink()
        return len(files)

    def move_away(self):
        self.folder.rename(self.elsewhere)

    def move_back(self):
        """Puts the folder back in place of the one that was made for it."""
        if self.folder.exists():
            shutil.rmtree(self.folder)
        self.elsewhere.rename(self.folder)

    def block_slot(self, register):
        """Puts a file in the place of the folder of a register's slot, so that it can't be opened."""
        self.block(str(slot_of(register.partition("/")[2])))

    def hide_slot(self, register):
        """The same, with the folder kept beside it."""
        folder = self.folder / str(slot_of(register.partition("/")[2]))
        folder.rename(self.folder / "hidden")
        folder.write_bytes(b"")

    def show_slot(self, register):
        """Puts the folder back that was hidden."""
        folder = self.folder / str(slot_of(register.partition("/")[2]))
        folder.unlink()
        (self.folder / "hidden").rename(folder)

    def block_data(self):
        """The same of the folder of data; its format can't be read then."""
        self.block("data")

    def block_writes(self):
        """Puts a file in the place of the folder in which data is written."""
        loose = self.folder / "data" / "loose"
        shutil.rmtree(loose)
        loose.write_bytes(b"")

    def block(self, name):
        folder = self.folder / name
        shutil.rmtree(folder)
        folder.write_bytes(b"")


def flip_byte(file, part):
    """Turns the bits of the byte of a file round that has this part of its bytes before it."""
    data = bytearray(file.read_bytes())
    at = min(int(part * len(data)), len(data) - 1)
    data[at] ^= 0xFF
    file.write_bytes(data)
