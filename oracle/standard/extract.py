#!/usr/bin/env python3
"""Takes the functions of TS 26.073 out of the package, to be compiled.

    extract.py FOLDER OUT

FOLDER is amr_nb of the package's source; OUT is the C file that is written. It is built, never
committed: the package is Apache-2.0, and nothing of it is part of the repository.

Two sorts of text are taken. QUOTED: the text of the standard as a comment headed PSEUDO-CODE quotes
it. STAND_INS: where a file quotes nothing, the package's own control flow, with the operators that
its comments name put back in place of the plain arithmetic. A stand-in weighs less: it shows what
the package's author had before him, not what the standard says.

Every change of a text is a line of these lists or of COMMON. A change whose old text isn't there
exactly once stops the script.
"""

import re
import sys
from pathlib import Path

# ---- changes made to every text: a pattern, what stands for it, and why
COMMON = [
    (r"\bpv_round\b", "round", "the package's name for the standard's round"),
    (r"\badd_16\b", "add", "the package's name for the standard's add"),
    (r"\bround\b(?= *\()", "round_word", "round is a function of C's own library"),
]

# ---- changes made to every quoted text
UNFRAMED = [
    (r"(?m)^[ \t]*\*[ \t-].*\n", "\n", "a line of a boxed comment whose frame the quotation lost"),
    (r"(?m)^[ \t]*-{20,}[ \t]*\n", "\n", "the rule below such a box"),
]

# ---- changes made to every stand-in
PUT_BACK = [
    (
        r"/\* *(\w+ = \w+ *\([^;]*?\)); *\*/\s*[^;]*?;",
        r"\1;",
        "an operator that a comment names, in place of the plain arithmetic behind the comment",
    ),
    (r"(?s)/\*.*?\*/", "", "other comments"),
    (r",\s*Flag\s*\*\s*pOverflow", "", "Overflow is one flag, not a pointer"),
    (r",\s*pOverflow\b", "", "the same, where it is handed on"),
    (r"OSCL_UNUSED_ARG\(pOverflow\);", "", "the same"),
    (r"\boscl_memcpy\b", "memcpy", "the package's name for memcpy"),
]


def quoted(file, section, name, *mends, head=False, end=""):
    """A quoted text: the section of its file, the function, and its own changes. `head`: the
    quotation begins below the function's head, which is then that of the package's code."""
    return dict(file=file, section=section, name=name, mends=mends, head=head, end=end)


QUOTED = [
    quoted("common/src/inv_sqrt.cpp", 0, "Inv_sqrt", (r"\btable\[", "inv_sqrt_tbl[", 6)),
    quoted("common/src/pow2.cpp", 0, "Pow2", (r"\btable\[", "pow2_tbl[", 6)),
    quoted("common/src/weight_a.cpp", 0, "Weight_Ai"),
    quoted("common/src/residu.cpp", 0, "Residu"),
    quoted("common/src/syn_filt.cpp", 0, "Syn_filt"),
    quoted("enc/src/calc_cor.cpp", 0, "comp_corr"),
    quoted("enc/src/pitch_ol.cpp", 0, "Lag_max"),
    quoted("enc/src/pitch_ol.cpp", 2, "Pitch_ol"),
    quoted("enc/src/convolve.cpp", 0, "Convolve"),
    quoted("enc/src/pitch_fr.cpp", 0, "Norm_Corr"),
    quoted(
        "enc/src/inter_36.cpp", 0, "Interpol_3or6", (r"\*pX\b", "*x", 1), head=True, end="}\n"
    ),
    quoted(
        "enc/src/pitch_fr.cpp",
        1,
        "searchFrac",
        (r"\n *fractional pitch\n", "\n", 1),
        (r"\n *\(3: =1 / 6: =0\)\n", "\n", 1),
    ),
    quoted("enc/src/pitch_fr.cpp", 2, "getRange"),
    quoted("enc/src/enc_lag3.cpp", 0, "Enc_lag3", head=True),
    quoted(
        "enc/src/pitch_fr.cpp",
        6,
        "Pitch_fr",
        (r"\n *weighting filters +Q12\n", "\n", 1),
        (r"\n *Find interval to compute normalized correlation\n", "\n", 1),
        (r"\n *Compute normalized correlation between target .*\n", "\n", 1),
        (r"\n *Find integer pitch\n", "\n", 1),
        (r"\n *Find fractional pitch\n", "\n", 1),
    ),
    quoted("enc/src/cor_h_x.cpp", 0, "cor_h_x", (r"\n *in one track\n", "\n", 1)),
    quoted("enc/src/set_sign.cpp", 0, "set_sign", (r" (i/o|o  |i  ) : ", " // ", 4)),
    quoted("enc/src/cor_h.cpp", 0, "cor_h", (r"\n *filter\n", "\n", 1)),
    quoted("enc/src/g_pitch.cpp", 0, "G_pitch"),
    quoted(
        "enc/src/calc_en.cpp",
        1,
        "calc_filt_energies",
        (r"\n *gcu = <xn2, y2> / c\[2\](\n *= .*)+\n", "\n", 1),
    ),
    quoted("enc/src/ton_stab.cpp", 1, "ton_stab_reset"),
    quoted("enc/src/ton_stab.cpp", 3, "check_lsp"),
    quoted("enc/src/ton_stab.cpp", 4, "check_gp_clipping"),
    quoted("enc/src/ton_stab.cpp", 5, "update_gp_clipping"),
]

# ---- parts of longer quotations: the window of the lag reader, the limit of the pitch gain
PARTS = [
    dict(
        file="dec/src/dec_amr.cpp",
        name="lag_window",
        start="delta_frc_low = 5;",
        end="Dec_lag3 (",
        head="void lag_window(enum Mode mode, Word16 old_T0, Word16 *min, Word16 *max)\n"
        "{\n    Word16 delta_frc_low, delta_frc_range, t0_min, t0_max;\n    ",
        foot="*min = t0_min;\n    *max = t0_max;\n}\n",
        mends=[(r"st->old_T0", "old_T0", 1)],
    ),
    dict(
        file="enc/src/cl_ltp.cpp",
        name="gain_limit",
        start="gpc_flag = 0;",
        end="// update target vector und evaluate LTP residual",
        head="void gain_limit(tonStabState *tonSt, enum Mode mode, Word16 lsp_flag, "
        "Word16 *gain_pit, Word16 **anap, Word16 *gp_limit)\n"
        "{\n    Word16 gpc_flag;\n   ",
        foot="}\n",
        mends=[],
    ),
]

# ---- what stands in: file, functions in the order of their text, how many operators are put back, and
# own changes. In the last three files nothing is put back: what can clip there is called as an operator
STAND_INS = [
    dict(
        file="enc/src/c4_17pf.cpp",
        names=["code_4i40_17bits", "search_4i40", "build_code"],
        operators=39,
        mends=[
            # The doubled gain clips: 01, 'The gain is doubled with clipping'.
            (r"sharp = pitch_sharp << 1;", "sharp = shl(pitch_sharp, 1);", 1),
        ],
    ),
    dict(
        file="enc/src/qua_gain.cpp",
        names=["Qua_gain"],
        operators=0,
        mends=[
            (r",\s*CommonAmrTbls\* common_amr_tbls", "", 1),
            (r"common_amr_tbls->table_gain_highrates_ptr", "table_gain_highrates", 1),
            (r"common_amr_tbls->table_gain_lowrates_ptr", "table_gain_highrates", 1),
        ],
    ),
    dict(file="dec/src/dec_lag3.cpp", names=["Dec_lag3"], operators=0, mends=[]),
    dict(file="enc/src/spreproc.cpp", names=["subframePreProc"], operators=0, mends=[]),
]

# ---- tables that are no symbols of the package: file, start, end
TABLES = [
    ("enc/src/pitch_fr.cpp", "static const struct", "};"),
    ("enc/src/cod_amr.cpp", "static const Word16 gamma1[M] =", "};"),
    ("enc/src/cod_amr.cpp", "static const Word16 gamma1_12k2[M] =", "};"),
    ("enc/src/cod_amr.cpp", "static const Word16 gamma2[M] =", "};"),
]

RULE = r"\n[ \t]*-{74,}[ \t]*\n"


def fail(message):
    sys.exit(f"extract.py: {message}: the package isn't the one that was read")


def changed(text, mends, where):
    for old, new, count in mends:
        text, found = re.subn(old, new, text)
        if found != count:
            fail(f"{where}: `{old}` {found} times, not {count}")
    return text


def all_changed(text, changes):
    for old, new, _ in changes:
        text = re.sub(old, new, text)
    return text


def sections(text):
    """The texts that comments headed PSEUDO-CODE quote."""
    return [
        re.split(RULE, part, maxsplit=1)[0]
        for part in re.split(r"\n[ \t]*PSEUDO-CODE(?: FOR \w+)?[ \t]*\n", text)[1:]
    ]


def head_of(text, name):
    """The head of a function of the package's code, with its brace."""
    found = re.findall(rf"(?m)^[ \t]*(?:static )?Word16\s+{name}\([^{{;]*\{{", text)
    if len(found) != 1:
        fail(f"head of {name} {len(found)} times")
    return all_changed(found[0], PUT_BACK)


def code_of(text, name):
    """A function of the package's code, to the brace at its head's indentation."""
    pattern = rf"(?ms)^([ \t]*)(?:static )?(?:void|Word16)\s+{name}\([^;{{]*?\n?[ \t]*\)\s*\n\1\{{.*?\n\1\}}"
    found = [match.group(0) for match in re.finditer(pattern, text)]
    if len(found) != 1:
        fail(f"code of {name} {len(found)} times")
    return found[0]


def main():
    folder, out = Path(sys.argv[1]), Path(sys.argv[2])
    files = {}

    def read(file):
        if file not in files:
            files[file] = (folder / file).read_text(encoding="latin-1").replace("\r\n", "\n")
        return files[file]

    parts = []
    for file, start, end in TABLES:
        text = read(file)
        if text.count(start) != 1:
            fail(f"{file}: `{start}`")
        parts.append((None, start + text.split(start)[1].split(end)[0] + end + "\n"))

    texts = []
    for entry in QUOTED:
        where = f"{entry['file']} {entry['name']}"
        text = sections(read(entry["file"]))[entry["section"]]
        if entry["head"]:
            text = head_of(read(entry["file"]), entry["name"]) + "\n" + text
        else:
            start = re.search(r"(?m)^(#ifdef VAD2\n)?(static )?(void|int|Word16|Word32)\s", text)
            if not start:
                fail(where)
            text = text[start.start() :]
        text = changed(text, entry["mends"], where)
        texts.append((entry["name"], all_changed(text, UNFRAMED + COMMON) + "\n" + entry["end"]))

    for part in PARTS:
        quotations = [text for text in sections(read(part["file"])) if part["start"] in text]
        if len(quotations) != 1:
            fail(part["file"])
        text = quotations[0][quotations[0].index(part["start"]) :]
        text = changed(text[: text.index(part["end"])], part["mends"], part["file"])
        text = part["head"] + all_changed(text, UNFRAMED + COMMON) + part["foot"]
        texts.append((part["name"], text))

    for entry in STAND_INS:
        codes = [(name, code_of(read(entry["file"]), name)) for name in entry["names"]]
        joined = "\0".join(text for _, text in codes)
        operators = len(re.findall(PUT_BACK[0][0], joined))
        if operators != entry["operators"]:
            fail(f"{entry['file']}: {operators} operators in comments, not {entry['operators']}")
        joined = changed(all_changed(joined, PUT_BACK + COMMON), entry["mends"], entry["file"])
        texts += [(name, text + "\n") for (name, _), text in zip(codes, joined.split("\0"))]

    # The head of standard.c declares what the texts need; names that the package has too are
    # changed there.
    lines = 1
    index = []
    written = ['/* Made by extract.py from the package, Apache-2.0. Not to be committed. */\n']
    for name, text in parts + texts:
        lines += written[-1].count("\n")
        if name:
            index.append((name, lines))
        written.append(text)
    index.append(("", lines + written[-1].count("\n")))
    written.append("const struct place quoted_places[] = {\n")
    written += [f'    {{"{name}", {line}}},\n' for name, line in index]
    written.append("};\n")
    out.write_text("".join(written))


main()
