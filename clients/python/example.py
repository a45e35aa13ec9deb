"""Two tabs of a page, and a lock: python3 example.py IMAGE, where `opfs format IMAGE 4096 64 4096` made the image."""

import sys

import opfs

with opfs.Store(sys.argv[1], ["https://a.example", "https://a.example"], clock=lambda: 1_700_000_000_000) as store:
    editor, reader = store.agents
    note = editor.directory().file("note", create=True)
    note.write_text("first note")

    with note.open() as handle:
        handle.write(b"FIRST")
        handle.flush()
        try:
            reader.directory().file("note").write_text("mine")
        except opfs.NoModificationAllowedError as refused:
            print(refused)

    for entry in reader.directory():
        print(entry, entry.read_text(), entry.snapshot().modified)
