#!/usr/bin/env python3
"""Run once at the top of the repository as it was written for the older Rattle, before its port.py.

That script leaves most of its steps out where it finds a library's name in the newer spelling. An alias of a
crate, `run_spec`, reads like one, so it is called `runs` here. Nothing else changes.
"""
import pathlib

for name in ('crates/report_spec/specs/Computing.antt', 'crates/run_view/specs/Computing.antt'):
    path = pathlib.Path(name)
    text = path.read_text(encoding='utf-8')
    turned = text.replace('.Computing as run_spec', '.Computing as runs').replace(' run_spec.computing', ' runs.computing')
    assert turned != text, name
    path.write_text(turned, encoding='utf-8')
