"""Readers: every format gives the same skin; broken files have one clear line; any bytes end in an answer or a FileFault."""
import os
import re
import struct
import tempfile
from pathlib import Path

import numpy as np
import pytest
from conftest import ROOT
from hypothesis import given, settings
from hypothesis import strategies as st
from scans import WRITERS, ascii_ply, ascii_stl, obj, off, ply, shaft, stl
from tables import O_CORNERS, O_ROWS

import flaxglimmer as fg
from flaxglimmer import calls, faults, files, readers

POINTS, ROWS = shaft(16, 31)


@pytest.fixture(scope="module")
def logs(tmp_path_factory):
    folder = tmp_path_factory.mktemp("formats")
    # 32-bit numbers in all, so that binary STL tells what the others do
    points = POINTS.astype(np.float32).astype(float)
    found = {}
    for name, writer in WRITERS.items():
        writer(folder / name, points, ROWS)
        skin = fg.read(folder / name, "m")
        found[name] = fg.thin(skin, "0.8 m")
    return found


def test_every_format_gives_the_same_skin(logs):
    first = logs["c.obj"]
    assert np.array_equal(first.skin.rows, ROWS) and len(first.log) > 100
    for name in ("d.off", "e.ply", "f.ply"):
        assert np.array_equal(logs[name].skin.corners, first.skin.corners) and np.array_equal(logs[name].log, first.log)
    # an STL has no corner numbers: they go by first appearance, and the rest is the same
    order = list(dict.fromkeys(ROWS.reshape(-1).tolist()))
    for name in ("a.stl", "b.stl"):
        skin = logs[name].skin
        assert np.array_equal(skin.corners, first.skin.corners[order]) and np.array_equal(np.array(order)[skin.rows], ROWS)
        assert skin.volume() == first.skin.volume()
    assert np.array_equal(logs["a.stl"].log, logs["b.stl"].log)


@pytest.mark.parametrize("name", [name for name in WRITERS if name != "b.stl"])
def test_meshio_reads_the_same(name, tmp_path):
    meshio = pytest.importorskip("meshio")
    WRITERS[name](tmp_path / name, POINTS, ROWS)
    mesh = meshio.read(tmp_path / name)
    points, rows, _ = readers.READERS[name[1:]]((tmp_path / name).read_bytes())
    assert np.array_equal(mesh.points[mesh.cells_dict["triangle"]], points[rows])


def octahedron_obj(**changes):
    lines = ["v %d %d %d" % tuple(corner) for corner in O_CORNERS.tolist()] + ["f %d %d %d" % tuple(row + 1) for row in O_ROWS.astype(int)]
    for place, line in changes.items():
        lines[int(place[1:])] = line
    return "\n".join(lines) + "\n"


PLY = """ply\r
format ascii 1.0
comment made by hand
element vertex 6
property float x
property float y
property float z
property uchar red
element face 8
property uchar flags
property list uchar int vertex_index
property list uchar float texcoord
element edge 1
property int a
end_header
"""
PLY_BODY = "".join("%d %d %d 255\n" % tuple(c) for c in O_CORNERS) + "".join("9 3 %d %d %d %d%s\n" % (*row, k % 3, " 0.5" * (k % 3)) for k, row in enumerate(O_ROWS)) + "7\n"


@pytest.mark.parametrize("name,text", [
    ("crlf.obj", octahedron_obj().replace("\n", "\r\n")),
    ("colours.obj", octahedron_obj(l0="v 0 0 100 1 0.5 0")),
    ("slashes.obj", octahedron_obj(l6="f 1/1/1 2//4 3/7", l7="f -6 -4 -3")),
    ("words.obj", "# made by hand\nmtllib x.mtl\no shaft\n" + octahedron_obj() + "usemtl y\ng z\n"),
    ("other.ply", PLY + PLY_BODY),
    ("one.off", "OFF 6 8 12\n" + "".join("%d  %d %d\n" % tuple(c) for c in O_CORNERS) + "".join("3 %d %d %d 0 0 255\n" % tuple(r) for r in O_ROWS)),
    ("colours.off", "COFF # colours\n\n# and comments\n6 8 0\n" + "".join("%d %d %d 255 0 0 255\n" % tuple(c) for c in O_CORNERS) + "".join("3 %d %d %d\n" % tuple(r) for r in O_ROWS)),
])  # fmt: skip
def test_well_formed_files_of_many_kinds(name, text, tmp_path):
    (tmp_path / name).write_bytes(text.encode())
    skin = fg.read(tmp_path / name, "cm")
    assert np.array_equal(skin.rows, O_ROWS) and np.array_equal(skin.corners, O_CORNERS)


def test_binary_ply_of_either_order_with_lists_of_any_length(tmp_path):
    for order in "<>":
        ply(tmp_path / "a.ply", POINTS, ROWS, "vertex_index", order)
        assert np.array_equal(fg.read(tmp_path / "a.ply", "m").rows, ROWS)
    head = PLY.replace("ascii", "binary_little_endian").replace("\r", "").encode()
    body = b"".join(struct.pack("<3fB", *corner, 255) for corner in O_CORNERS.tolist())
    body += b"".join(struct.pack(f"<BB3iB{k % 3}f", 9, 3, *row, k % 3, *[0.5] * (k % 3)) for k, row in enumerate(O_ROWS.tolist())) + b"\7\0\0\0"
    points, rows, single = readers.read_ply(head + body)
    assert np.array_equal(rows, O_ROWS) and np.array_equal(points, O_CORNERS) and single
    for cut in (1, 5, 30, 100):
        with pytest.raises(fg.FileFault, match="cut short"):
            readers.read_ply(head + body[: -4 - cut])


def test_an_ascii_ply_of_floats_is_read_to_64_bits():
    text = PLY + PLY_BODY.replace("0 0 100 255", "0.1 0 100 255", 1)
    points, _, single = readers.read_ply(text.encode())
    assert points[0, 0] == 0.1 and not single


def test_numbers_that_count_back_are_from_the_points_so_far():
    points, rows, _ = readers.read_obj(b"v 0 0 0\nv 1 0 0\nv 0 1 0\nf -3 -2 -1\nv 0 0 1\nf -1 -2 -3\n")
    assert rows.tolist() == [[0, 1, 2], [3, 2, 1]]


BROKEN = [
    ("empty.stl", b"", "the file is empty"),
    ("words.stl", b"these are words and no scan, and there are more than eighty-four of them, which is as many as a head has", "no STL"),
    ("nothing.stl", b"solid nothing\nendsolid nothing\n", "no facet"),
    ("empty.obj", b"", "no triangles"),
    ("points.obj", b"v 0 0 0\n", "no triangles"),
    ("quad.obj", octahedron_obj(l7="f 1 2 3 4").encode(), "line 8: a face of 4 corners"),
    ("zero.obj", octahedron_obj(l6="f 0 1 2").encode(), "line 7: corner number 0"),
    ("back.obj", octahedron_obj(l6="f 1 2 -7").encode(), "line 7: a number that counts back past"),
    ("word.obj", octahedron_obj(l1="v 1 two 3").encode(), "line 2: no numbers: '1 two 3'"),
    ("short.obj", octahedron_obj(l1="v 1 2").encode(), "line 2: 3 numbers are needed, and there are 2"),
    ("underscore.obj", octahedron_obj(l1="v 1_0 2 3").encode(), "line 2: no numbers"),
    ("huge.obj", octahedron_obj(l6="f 1 2 5000000000").encode(), "past 32 bits"),
    ("nan.obj", octahedron_obj(l2="v nan 0 0").encode(), "point 2, in row 0, has a coordinate that is no finite number: (nan, 0.0, 0.0)"),
    ("infinite.obj", octahedron_obj(l2="v 0 1e999 0").encode(), "point 2, in row 0, has a coordinate that is no finite number: (0.0, inf, 0.0)"),
    ("words.off", b"no OFF at all", "its first word is not OFF"),
    ("four.off", b"4OFF\n1 1 0\n", "its first word is not OFF"),
    ("binary.off", b"OFF BINARY\n\0\0", "line 1: a binary OFF"),
    ("counts.off", b"OFF\n", "ends before its counts"),
    ("minus.off", b"OFF\n-1 8 0\n", "line 2: a count below zero"),
    ("cut.off", b"OFF\n6 8 0\n0 0 1\n", "cut short"),
    ("many.off", b"OFF\n6 99999999 0\n0 0 1\n", "99,999,999 faces"),
    ("quad.off", b"OFF\n3 1 0\n0 0 0\n1 0 0\n0 1 0\n4 0 1 2 2\n", "line 6: a face of '4' corners"),
    ("minus1.off", b"OFF\n3 1 0\n0 0 0\n1 0 0\n0 1 0\n3 0 1 -1\n", "row 0 (0, 1, -1)"),
    ("words.ply", b"plywood\n", "no PLY"),
    ("head.ply", b"ply\nformat ascii 1.0\n", "header does not end"),
    ("format.ply", b"ply\nformat utf8 1.0\nend_header\n", "line 2: the PLY's header cannot be read"),
    ("noformat.ply", b"ply\nelement vertex 0\nend_header\n", "tells no format"),
    ("kind.ply", PLY.replace("float x", "complex x").encode(), "line 5: the PLY's header"),
    ("floats.ply", PLY.replace("uchar int vertex_index", "uchar float vertex_index").encode(), "of whole numbers"),
    ("length.ply", PLY.replace("uchar int vertex_index", "float int vertex_index").encode(), "line 11: the PLY's header"),
    ("axes.ply", PLY.replace("float z", "float w").encode(), "no x, y and z"),
    ("faceless.ply", PLY.replace("element face", "element fact").encode(), "0 elements 'face'"),
    ("twice.ply", PLY.replace("element edge", "element face").encode(), "2 elements 'face'"),
    ("minus.ply", PLY.replace("vertex 6", "vertex -6").encode(), "line 4: the PLY's header"),
    ("many.ply", PLY.replace("face 8", "face 99999999").encode(), "99,999,999 faces"),
    ("cut.ply", (PLY + PLY_BODY[:60]).encode(), "the file ends after"),
    ("quad.ply", (PLY + PLY_BODY.replace("9 3 0 1 2", "9 4 0 1 2 3", 1)).encode(), "face 0 has 4 corners"),
    ("below.ply", (PLY + PLY_BODY.replace("9 3 0 1 2", "9 -3 0 1 2", 1)).encode(), "line 22: a list of a length below zero"),
    ("word.ply", (PLY + PLY_BODY.replace("100 0 0 255", "100 0 x 255", 1)).encode(), "line 17: no numbers"),
    ("scan.pdf", b"%PDF", "'.pdf' is no format that is read"),
    ("scan", b"", "'no suffix' is no format that is read"),
]  # fmt: skip


@pytest.mark.parametrize("name,data,message", BROKEN, ids=[name for name, _, _ in BROKEN])
def test_broken_files_have_one_clear_line(name, data, message, run, tmp_path):
    (tmp_path / name).write_bytes(data)
    told = run("thin", tmp_path / name, "--unit", "m", "--limit", "none")
    assert told.exit == 3 and told.out == "" and told.err.count("\n") == 1
    assert told.err.startswith(f"flaxglimmer: {name}: ") and message in told.err
    told = run("check", tmp_path / name, "--unit", "m", "--json").told
    line = re.match(r"line (\d+): ", message)
    assert told["exit"] == 3 and told["status"] is None and message in told["error"] and (line is None or told["line"] == int(line[1]))


@pytest.mark.parametrize("head", [b"scan", b"solid scan"])
def test_binary_stl_cut_short_or_too_long(head, run, tmp_path):
    stl(tmp_path / "a.stl", POINTS, ROWS, head)
    whole = (tmp_path / "a.stl").read_bytes()
    assert run("check", tmp_path / "a.stl", "--unit", "m").exit == 0
    for data in (whole[:-1], whole[:-50], whole[:90], whole + b"\0"):
        (tmp_path / "a.stl").write_bytes(data)
        told = run("check", tmp_path / "a.stl", "--unit", "m")
        assert told.exit == 3 and ("cut short" in told.err or "more behind" in told.err)


def test_ascii_stl_cut_short(run, tmp_path):
    ascii_stl(tmp_path / "a.stl", POINTS, ROWS)
    whole = (tmp_path / "a.stl").read_text()
    for text, message in ((whole[: whole.rindex("vertex")], "ends inside a facet"), (whole.replace("  vertex", "  vortex", 1), "line 8: a facet that has not three vertices")):
        (tmp_path / "a.stl").write_text(text)
        told = run("check", tmp_path / "a.stl", "--unit", "m")
        assert told.exit == 3 and message in told.err


def test_folders_pipes_and_what_is_not_there(run, tmp_path):
    (tmp_path / "folder.stl").mkdir()
    os.mkfifo(tmp_path / "pipe.stl")
    for name, message in (("folder.stl", "Is a directory"), ("pipe.stl", "no plain file"), ("none.stl", "No such file"), ("a\0.stl", "null byte")):
        told = run("check", f"{tmp_path}/{name}", "--unit", "m")
        assert told.exit == 3 and message in told.err, told.err


def test_no_permission(tmp_path):
    stl(tmp_path / "a.stl", POINTS, ROWS)
    os.chmod(tmp_path / "a.stl", 0)
    child = os.fork()
    if child == 0:  # root may read everything: there the reader is another user
        try:
            os.chmod(tmp_path, 0o755)
            os.chdir(tmp_path)
            if os.geteuid() == 0:
                os.setgroups([])
                os.setuid(65534)
            fg.read("a.stl", "m")
        except fg.FileFault as fault:
            os._exit(7 if str(fault) == "it cannot be read: Permission denied" else 1)
        finally:
            os._exit(2)
    assert os.waitstatus_to_exitcode(os.waitpid(child, 0)[1]) == 7


def test_weld_is_of_equal_points_alone(tmp_path):
    stl(tmp_path / "a.stl", POINTS, ROWS)
    assert len(fg.read(tmp_path / "a.stl", "m").corners) == len(POINTS)
    assert len(fg.read(tmp_path / "a.stl", "m", weld="none").corners) == 3 * len(ROWS)
    apart = POINTS[ROWS].reshape(-1, 3)
    alone = np.arange(len(apart)).reshape(-1, 3)
    obj(tmp_path / "a.obj", apart, alone)
    assert len(fg.read(tmp_path / "a.obj", "m").corners) == 3 * len(ROWS)
    assert len(fg.read(tmp_path / "a.obj", "m", weld="equal").corners) == len(POINTS)
    apart[0] = np.nextafter(apart[0], 100)  # nearest neighbours in binary64 are two points
    skin = fg.from_points(apart, alone, "m", weld="equal")
    assert len(skin.corners) == len(POINTS) + 1
    apart[0] = POINTS[ROWS[0, 0]]
    apart[apart == 0] *= np.where(np.arange(np.count_nonzero(apart == 0)) % 2, -1, 1)  # -0.0 is 0.0
    assert len(fg.from_points(apart, alone, "m", weld="equal").corners) == len(POINTS)


def test_flat_rows_are_left_out_only_when_asked(tmp_path):
    flat = np.concatenate([ROWS[:5], [[7, 7, 9]], ROWS[5:], [[3, 4, 3]]])
    off(tmp_path / "a.off", POINTS, flat)
    with pytest.raises(fg.Refused) as refused:
        fg.thin(fg.read(tmp_path / "a.off", "m"), "1 m")
    assert refused.value.number == 6 and [fault.rows for fault in refused.value.faults] == [(5,), (len(flat) - 1,)]
    skin = fg.read(tmp_path / "a.off", "m", drop_flat=True)
    assert np.array_equal(skin.rows, ROWS) and skin.file_rows.tolist() == [k for k in range(len(flat)) if k not in (5, len(flat) - 1)]
    assert "flat rows, with one corner twice, were left out (2): 5, 993" in skin.notes


def test_rows_are_told_by_their_numbers_in_the_file(tmp_path):
    damaged = np.concatenate([[[7, 7, 9]], ROWS[:-1]])
    off(tmp_path / "a.off", POINTS, damaged)
    with pytest.raises(fg.Refused) as refused:
        fg.thin(fg.read(tmp_path / "a.off", "m", drop_flat=True), "1 m")
    (hole,) = refused.value.faults
    gone = set(map(int, ROWS[-1]))
    assert refused.value.number == 8 and all(len(gone & set(damaged[row].tolist())) == 2 for row in hole.rows)


def test_flat_rows_past_the_limit_are_read_when_they_are_dropped(tmp_path):
    flat = np.concatenate([ROWS, np.full((100, 3), 5)])
    ascii_ply(tmp_path / "a.ply", POINTS, flat)
    with pytest.raises(fg.Refused) as refused:
        fg.read(tmp_path / "a.ply", "m")
    assert refused.value.number == 2
    assert len(fg.read(tmp_path / "a.ply", "m", drop_flat=True).rows) == len(ROWS)


def test_too_many_rows_are_refused_before_they_are_rounded():
    points = np.tile(POINTS, (1000, 1))
    with pytest.raises(fg.Refused) as refused:
        fg.from_points(points, np.tile(ROWS, (1000, 1)), "m")
    assert refused.value.number == 2 and refused.value.faults[0].text.startswith("992,000 rows")


def test_numbers_at_the_ends_of_binary64(run, tmp_path):
    obj(tmp_path / "a.obj", (POINTS + [0, 0, 15]) / 16 * 1.7e308, ROWS)  # their extent is infinite
    assert run("check", tmp_path / "a.obj").exit == 2
    told = run("check", tmp_path / "a.obj", "--unit", "m", "--json").told
    assert told["status"] == 4 and len(told["faults"]) == len(POINTS)


def test_points_that_no_row_uses_are_left_out(tmp_path):
    off(tmp_path / "a.off", np.concatenate([[[np.nan, 0, 0]], POINTS]), ROWS + 1)
    skin = fg.read(tmp_path / "a.off", "m")
    assert np.array_equal(skin.rows, ROWS) and "points of the file that no row uses were left out (1)" in skin.notes


def test_rows_are_turned_only_when_asked(tmp_path):
    off(tmp_path / "a.off", POINTS, ROWS[:, ::-1])
    inward, turned = fg.read(tmp_path / "a.off", "m"), fg.read(tmp_path / "a.off", "m", turn=True)
    assert np.array_equal(turned.rows, ROWS) and inward.volume() == -turned.volume() < 0


def test_numbers_past_the_points_stay_so_for_the_library(tmp_path):
    rows = ROWS.copy()
    rows[3, 1] = len(POINTS) + 2
    off(tmp_path / "a.off", np.concatenate([POINTS, [[9, 9, 9]]]), rows)
    for weld in ("none", "equal"):
        with pytest.raises(fg.Refused) as refused:
            fg.thin(fg.read(tmp_path / "a.off", "m", weld=weld), "1 m")
        assert refused.value.number == 5 and refused.value.faults[0].rows == (3,)


def test_lost_detail_is_warned_of(tmp_path):
    far = POINTS + np.array([0, 7123457.0, 0])
    stl(tmp_path / "a.stl", far, ROWS)
    assert "50 cm apart" in fg.read(tmp_path / "a.stl", "m", origin="auto").warnings[0]
    obj(tmp_path / "a.obj", far, ROWS)
    assert fg.read(tmp_path / "a.obj", "m", origin="auto").warnings == []
    stl(tmp_path / "a.stl", POINTS, ROWS)
    assert fg.read(tmp_path / "a.stl", "m").warnings == []


# Any bytes at all

SEEDS = {".stl": [], ".obj": [octahedron_obj().encode()], ".ply": [(PLY + PLY_BODY).encode()], ".off": []}


@pytest.fixture(scope="module", autouse=True)
def seeds(tmp_path_factory):
    folder = tmp_path_factory.mktemp("seeds")
    points, rows = shaft(3, 2)
    for name, writer in WRITERS.items():
        writer(folder / name, points, rows)
        SEEDS[name[1:]].append((folder / name).read_bytes())


WORDS = [b"solid", b"endfacet\n", b"vertex 1 2 3\n", b"f 1 2 3\n", b"v 1 2 3\n", b"OFF\n", b"ply\n", b"element face 3\n", b"element vertex 999999999999\n",
         b"property list int int vertex_indices\n", b"property list uchar uint x\n", b"property double x\n", b"end_header\n", b"format binary_big_endian 1.0\n",
         b"-1", b"99999999999999999999", b"nan", b"1e400", b"\n", b"\r", b"\0", b"\xff\xff\xff\xff", b"#", b"/", b" "]  # fmt: skip
pieces = st.lists(st.sampled_from(WORDS) | st.binary(max_size=12), max_size=24).map(b"".join)


def ends_well(kind, data):
    """A file of these bytes is read, refused or told to be none: nothing else."""
    with tempfile.TemporaryDirectory() as folder:
        path = Path(folder) / f"a{kind}"
        path.write_bytes(data)
        try:
            skin = fg.read(path, "m", drop_flat=len(data) % 2 == 0, weld=("auto", "equal")[len(data) % 3 == 0])
            fg.thin(skin, "1 m").hold()
        except (fg.FileFault, fg.Refused) as fault:
            assert str(fault) and "\n" not in str(fault)


@settings(max_examples=400)
@given(st.sampled_from(sorted(readers.READERS)), pieces)
def test_any_bytes_as_any_format(kind, data):
    ends_well(kind, data)


@settings(max_examples=600)
@given(st.sampled_from(sorted(readers.READERS)), st.data())
def test_good_files_cut_spliced_and_spoiled(kind, data):
    whole = bytearray(data.draw(st.sampled_from(SEEDS[kind])))
    for _ in range(data.draw(st.integers(1, 3))):
        at = data.draw(st.integers(0, len(whole)))
        piece = data.draw(st.sampled_from(WORDS) | st.binary(max_size=6))
        whole[at : at + data.draw(st.sampled_from([0, 0, 1, len(piece), 40]))] = piece
    ends_well(kind, bytes(whole))


SHEET = (ROOT / "sheets" / "octahedron.sheet").read_bytes()
MARKS = [b"", b"\n", b"\t", b" ", b"0", b"-", b"-0", b"7", b"999999", b"1000000", b"50001", b"C", b"R\t0\t1\t2\n", b"SKIN\t", b"\r", b"\xff", b"\0"]


def spliced(whole):
    """Up to three pieces put in or in place of bytes."""
    change = st.tuples(st.integers(0, len(whole)), st.integers(0, 3), st.sampled_from(MARKS) | st.binary(max_size=3))
    return st.lists(change, max_size=3).map(lambda changes: _spliced(whole, changes))


def _spliced(whole, changes):
    for at, gone, piece in changes:
        whole = whole[:at] + piece + whole[at + gone :]
    return whole


@settings(max_examples=600)
@given(spliced(SHEET) | st.binary(max_size=60))
def test_a_spoiled_sheet_is_read_or_has_a_place(data):
    try:
        rows, corners = calls.read_sheet(data)
    except fg.Refused as refused:
        found = faults.in_sheet(data, refused.number)
        assert found and all("\n" not in fault.text for fault in found)
        if refused.number not in (2, 12):  # then the form holds, and no place of a 12 is found
            with pytest.raises(fg.OurFault):
                faults.in_sheet(data, 12)
    else:
        assert files.sheet_text(fg.Skin(rows, corners)).encode() == data


@settings(max_examples=400)
@given(spliced(calls.reply(SHEET)) | st.binary(max_size=60))
def test_a_spoiled_log_is_read_or_told(data):
    with tempfile.TemporaryDirectory() as folder:
        (Path(folder) / "a.log").write_bytes(data)
        try:
            answer = files.read_answer(Path(folder) / "a.log")
        except fg.FileFault as fault:
            assert "\n" not in str(fault)
            return
    for call in (lambda: calls.replay(O_ROWS, 6, answer.log), lambda: calls.grow_back(answer.rows, 6, answer.log)):
        try:
            call()
        except fg.Refused as refused:
            assert refused.number in range(1, 14)


@settings(max_examples=60)
@given(st.sampled_from(sorted(readers.READERS)), st.sampled_from(sorted(readers.READERS)), st.integers(0, 1))
def test_a_file_under_another_suffix(kind, other, which):
    ends_well(other, SEEDS[kind][which % len(SEEDS[kind])])
