"""The kerning pairs of a font: by how much the room of a glyph changes behind another one."""
from collections import namedtuple

from .faults import Fault

# the table that the pairs are of, or None; the changes by (FIRST, SECOND), glyphs by their names, none of them 0;
# how many pairs were passed over, since they do more than change the advance of their first glyph
Kerning = namedtuple("Kerning", "table changes passed")

SCRIPTS = ("DFLT", "latn")
FEATURE, NO_FEATURE = "kern", 0xFFFF
PAIRS = 2
PLACES = ("XPlacement", "YPlacement", "YAdvance")
# the flags of a lookup that pass over glyphs, and the class in GDEF of those glyphs
BASES, LIGATURES, MARKS = (0x2, 1), (0x4, 2), (0xFF18, 3)
# flags of a subtable of `kern`, written as Windows does and as Apple does: what kind it is, the kind that is horizontal
# and changes advances along the line, and whether it stands in the place of those before it
KIND, ALONG, INSTEAD = 0x7, 0x1, 0x8
APPLE_KIND, APPLE_ALONG = 0xE0, 0


def kerning_of(font, glyphs):
    """The pairs of these glyphs: those of GPOS where the font has pair adjustments there, else those of `kern`.

    Some fonts kern Latin letters in the script `latn` alone, and other glyphs in each of their scripts, so a script
    that has no pair of these glyphs doesn't count."""
    try:
        classes, found = glyph_classes(font.tables), None
        for script in SCRIPTS:
            lookups = pair_lookups(font.tables, script)
            if lookups and not (found and found.changes):
                found = of_lookups(lookups, classes, glyphs)
        return found or of_kern_table(font.tables, glyphs)
    except Exception as why:
        what = str(why).split("\n")[0] or type(why).__name__
        raise Fault(f"{font.path}: its kerning can't be read: {what}") from None


def pair_lookups(tables, script):
    """The lookups of a script's feature `kern` that adjust pairs, in their order, each as its flags and its
    subtables."""
    table = tables["GPOS"].table if "GPOS" in tables else None
    if table is None or not table.ScriptList or not table.FeatureList or not table.LookupList:
        return []
    lookups = []
    for number in sorted(kern_lookups(table, script)):
        lookup = table.LookupList.Lookup[number]
        subtables = [getattr(it, "ExtSubTable", it) for it in lookup.SubTable]
        subtables = [it for it in subtables if it.LookupType == PAIRS]
        if subtables:
            lookups.append((lookup.LookupFlag, subtables))
    return lookups


def kern_lookups(table, script):
    """The numbers of the lookups of `kern` in the default language of a script."""
    scripts = {record.ScriptTag: record.Script for record in table.ScriptList.ScriptRecord}
    language = scripts[script].DefaultLangSys if script in scripts else None
    if language is None:
        return set()
    numbers = [language.ReqFeatureIndex, *language.FeatureIndex]
    records = [table.FeatureList.FeatureRecord[number] for number in numbers if number != NO_FEATURE]
    return {it for record in records if record.FeatureTag == FEATURE for it in record.Feature.LookupListIndex}


def glyph_classes(tables):
    """The classes of glyphs in GDEF."""
    table = tables["GDEF"].table if "GDEF" in tables else None
    classes = table.GlyphClassDef if table is not None else None
    return classes.classDefs if classes else {}


def of_lookups(lookups, classes, glyphs):
    """The pairs of GPOS: each lookup adds what the first of its subtables that applies to a pair says."""
    sums, passed = {}, set()
    for flags, subtables in lookups:
        ignored = {number for bits, number in (BASES, LIGATURES, MARKS) if flags & bits}
        seen = {glyph for glyph in glyphs if classes.get(glyph) not in ignored}
        for pair, change in of_lookup(subtables, seen).items():
            if change is None:
                passed.add(pair)
            else:
                sums[pair] = sums.get(pair, 0) + change
    return Kerning("GPOS", {pair: change for pair, change in sums.items() if change}, len(passed))


def of_lookup(subtables, glyphs):
    """The changes of one lookup by pairs; None is the change of a pair that is passed over.

    A subtable of single pairs applies to those alone; one of classes to each pair whose first glyph it covers, also
    where the second one is in no class of its own or the change is 0."""
    found, whole = {}, set()
    for subtable in subtables:
        firsts = glyphs.intersection(subtable.Coverage.glyphs) - whole
        if subtable.Format == 1:
            pairs = single_pairs(subtable, firsts, glyphs)
        else:
            pairs = class_pairs(subtable, firsts, glyphs)
            whole |= firsts
        for pair, change in pairs:
            found.setdefault(pair, change)
    return found


def single_pairs(subtable, firsts, glyphs):
    for first, pairs in zip(subtable.Coverage.glyphs, subtable.PairSet):
        if first in firsts:
            for record in pairs.PairValueRecord:
                if record.SecondGlyph in glyphs:
                    yield (first, record.SecondGlyph), change_of(record)


def class_pairs(subtable, firsts, glyphs):
    first_classes, second_classes = subtable.ClassDef1.classDefs, subtable.ClassDef2.classDefs
    for first in firsts:
        records = subtable.Class1Record[first_classes.get(first, 0)].Class2Record
        changes = [change_of(record) for record in records]
        for second in glyphs:
            yield (first, second), changes[second_classes.get(second, 0)]


def change_of(record):
    """The change of the first glyph's advance, or None where the record changes something else too."""
    first, second = getattr(record, "Value1", None), getattr(record, "Value2", None)
    others = [getattr(first, part, 0) for part in PLACES]
    others += [getattr(second, part, 0) for part in ("XAdvance", *PLACES)]
    return None if any(others) else getattr(first, "XAdvance", 0)


def of_kern_table(tables, glyphs):
    """The pairs of the table `kern`, of its subtables of format 0."""
    sums = {}
    for subtable in tables["kern"].kernTables if "kern" in tables else ():
        if subtable.format != 0 or not is_along(subtable):
            continue
        instead = not subtable.apple and subtable.coverage & INSTEAD
        for (first, second), change in subtable.kernTable.items():
            if first in glyphs and second in glyphs:
                before = 0 if instead else sums.get((first, second), 0)
                sums[first, second] = before + change
    changes = {pair: change for pair, change in sums.items() if change}
    return Kerning("kern" if "kern" in tables else None, changes, 0)


def is_along(subtable):
    if subtable.apple:
        return subtable.coverage & APPLE_KIND == APPLE_ALONG
    return subtable.coverage & KIND == ALONG
