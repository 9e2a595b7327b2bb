#!/usr/bin/env python3
"""Files that may not grow: where the signal is ignored, the write fails, and the journal's answer or the file's is told.

    tests/outside/file_limits.py --program PATH

The program cannot ignore the signal itself: its toolchain has no call for that, and takes no C functions. So a shell does it here."""
import edge


def main():
    edges = edge.Edge(__doc__)
    for blocks in (0, 1, 2, 4):
        made, at = edges.folder()
        with made:
            old = edge.content(at("e", "linked.cfp"))
            answer = edges.run(at, "build", "one.c", "--nodes", "2", "--dir", "none", "--bundle", "b", shell=f'trap "" XFSZ; ulimit -f {blocks}; exec "$@"')
            right = answer[0] == 0 or answer[0] == 2 and answer[2].startswith(b"file ") or answer[0] == 4 and answer[2].startswith((b"journal 401", b"write 701"))
            edges.told(f"{blocks} blocks", right and edge.content(at("e", "linked.cfp")) == old, answer)
    made, at = edges.folder()
    with made:
        answer = edges.run(at, "log", "e/node0.cf2", shell='trap "" PIPE; { "$@"; echo $? >status; } | true')
        edges.told("nobody reads", edge.content(at("status")).strip() in (b"0", b"4"), answer)
    edges.end()


main()
