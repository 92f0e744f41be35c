"""Flaxglimmer for Python: the proved calls on numpy arrays, and skins from scanners' files. docs/FRONT-END.md of the repository says more."""
from . import lent
from .calls import catch_up, change, exact_sum, flip_list, grow_back, job, limit, read_sheet, reply, replay, shift, shorter_ring, trial_ring, undo_flips, volume
from .calls import LogSheet, each_record, next_record, open_log_sheet, read_log_sheet, records, write_log_sheet
from .files import from_points, read
from .refusals import Fault, FileFault, LibraryMissing, OurFault, Refused, UsageFault
from .skins import Recovered, Skin, Thinned, recover, thin
