"""The rules of docs/SESSIONS.md and of the client once more, small and apart from the proved sources.

`play(session, faults)` of model.play answers what the program has to print. Nothing in here was read
off the program: the grammar is that of RESP2 and RESP3, the routes are those of Redis' commands, and
what stands behind a refused call is what the client's documentation promises.

    resp.py      a node's bytes as trees, each with the place at which it is whole
    numbers.py   numbers and texts as Rust reads them
    slots.py     addresses, slots, and the slot map that a reply lists
    routing.py   where a command goes, and its parts
    combine.py   one reply from several
    records.py   the entries of streams in a reply
    links.py     a link: what a call writes, reads, and leaves
    client.py    the calls
    script.py    the lines of a session
    text.py      what is printed
    play.py      a session from its text to what is printed
"""
