"""Object files by pyelftools: debug information, symbols, and the words of virtual tables."""
import io
import os
import struct
import sys

from . import clang, problem
from .problem import Problem

DEBIAN = "/usr/lib/python3/dist-packages"  # where Debian's python3-pyelftools is; another Python does not look there
MACHINES = ("EM_X86_64", "EM_AARCH64")  # those of LP64 whose debug information the library relocates


def library():
    """The module of pyelftools, or the sentence that says how to get it."""
    try:
        import elftools.elf.elffile
    except ImportError:
        if DEBIAN not in sys.path and os.path.isdir(os.path.join(DEBIAN, "elftools")):
            sys.path.append(DEBIAN)
            return library()
        raise Problem("python3-pyelftools is not there, and --object reads debug information by it: apt-get install python3-pyelftools", 2) from None
    return elftools


class ObjectFile:
    """An object file or a program of 64 bits with debug information."""

    def __init__(self, path):
        elftools = library()
        content = problem.read_bytes(path)
        try:
            self.file = elftools.elf.elffile.ELFFile(io.BytesIO(content))
            self.sections = list(self.file.iter_sections())
        except Exception:  # what is no such file is told by errors of several kinds
            raise Problem(f"{path} is no object file of ELF; give one that g++ -c or clang++ -c made, or a program") from None
        if self.file.elfclass != 64 or self.file["e_machine"] not in MACHINES:
            raise Problem(f"{path} is of another architecture, {str(self.file['e_machine']).removeprefix('EM_')} with {self.file.elfclass} bits; files of x86-64 and AArch64 are read")
        if not self.file.has_dwarf_info() or not any(section.name in (".debug_info", ".zdebug_info") and section.data_size for section in self.sections):
            raise Problem(f"{path} has no debug information; compile it with -g")
        if any(section.name == ".debug_gnu_pubnames" or section.name.endswith(".dwo") for section in self.sections):
            raise Problem(f"{path} has its classes in a file of its own; compile it without -gsplit-dwarf")
        self.has_type_units = [section.name for section in self.sections].count(".debug_info") > 1 or any(section.name == ".debug_types" for section in self.sections)
        self.path = path
        self.endian = "<" if self.file.little_endian else ">"
        self.is_relocatable = self.file["e_type"] == "ET_REL"

    def units(self):
        """The top entries of the compilation units, each with its DWARF version."""
        for unit in self.file.get_dwarf_info().iter_CUs():
            yield unit.get_top_DIE(), unit["version"]

    def symbols(self):
        """The symbols by name."""
        found = {}
        for section in self.sections:
            if section["sh_type"] in ("SHT_SYMTAB", "SHT_DYNSYM"):
                for symbol in section.iter_symbols():
                    if isinstance(symbol["st_shndx"], int):
                        found.setdefault(symbol.name, symbol)
        return found

    def virtual_tables(self):
        """The words of the whole group of each class that has one in the file, by the class's name as c++filt writes it.

        A word is a number, or the symbol to which it is relocated."""
        symbols = self.symbols()
        tables = {name: symbol for name, symbol in symbols.items() if name.startswith("_ZTV")}
        if not tables:
            return {}
        output, _, _ = clang.call(["c++filt"], "".join(name + "\n" for name in tables))
        addresses = {symbol["st_value"]: name for name, symbol in symbols.items() if name.startswith("_ZTI")} if not self.is_relocatable else {}
        places = self.places_of_types(symbols)
        return {told.removeprefix("vtable for "): self.words(symbol, places, addresses) for (name, symbol), told in zip(tables.items(), output.splitlines())}

    def words(self, symbol, places, addresses):
        section = self.sections[symbol["st_shndx"]]
        start = symbol["st_value"] - (0 if self.is_relocatable else section["sh_addr"])
        data = section.data()[start:start + symbol["st_size"]]
        found = [word for (word,) in struct.iter_unpack(self.endian + "q", data[:len(data) // 8 * 8])]
        front = (symbol["st_shndx"], start) if self.is_relocatable else (None, symbol["st_value"])
        return [places.get((front[0], front[1] + 8 * number)) or addresses.get(word) or word for number, word in enumerate(found)]

    def places_of_types(self, symbols):
        """Which words are relocated to type information, by section and place; in a program, by address alone."""
        found, values = {}, {symbol["st_value"]: name for name, symbol in symbols.items() if name.startswith("_ZTI")}
        for section in self.sections:
            if section["sh_type"] != "SHT_RELA":
                continue
            names = self.sections[section["sh_link"]] if section["sh_link"] else None
            of = section["sh_info"] if self.is_relocatable else None
            for one in section.iter_relocations():
                name = names.get_symbol(one["r_info_sym"]).name if names is not None and one["r_info_sym"] else values.get(one["r_addend"], "") if not self.is_relocatable else ""
                if name.startswith("_ZTI"):
                    found[of, one["r_offset"]] = name
        return found
