"""A second opinion on a store: each delta is shown again from the records.

It is written from docs/FORMATS.md and docs/MACHINE.md alone, and shares nothing with the program, nor with what else of `ae` reads a
store: where it and `aegis -AUDit` say the same, no fault of one reader can be the reason.

`grammar` reads a text, `records` says which texts are records, `files` which bytes the files of a store have, `rules` what the records
must keep, `deltas` what shows a delta, `verdict` all of it in the order of an audit, and `command` is `ae audit`.
"""
