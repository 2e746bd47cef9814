#!/usr/bin/env python3
"""What the module makes of two nodes in one program, of refusals, and of texts: test_rstar.py FOLDER"""
import os
import sys
import threading

import rstar

TREE = '[[process]]\nid = 1\nkind = "coordinator"\n[[process]]\nid = 2\nkind = "manager"\nparent = 1\n'


def refused(number, call, *words, **named):
    try:
        call(*words, **named)
    except rstar.Refused as why:
        assert why.number == number, (why.number, str(why))
        return why
    raise AssertionError(f"{call} was not refused")


def main(folder):
    path = lambda p: f"{folder}/{p}.log"
    refused(6, rstar.Node, TREE, 1, path(1))
    nodes = {p: rstar.Node(TREE, p, path(p), new=True) for p in (1, 2)}
    assert nodes[1].opening == ["log 1 Opened 1 forced", "ok"]
    told = []

    def tell(p, text):
        for line in nodes[p].line(text):
            told.append(line)
            if line[0].isdigit() and "->" in line:
                tell(int(line.split("->")[1].split()[0]), line)

    for text in ["begin pa", "join a1.1 2", "work a1.1 2 put x 1", "commit a1.1", "outcome a1.1"]:
        tell(1, text)
    assert "told a1.1 committed" in told and "outcome a1.1 committed" in told, told
    refused(5, rstar.Node, TREE, 1, path(1))
    refused(7, rstar.Node, TREE, 1, path(1), new=True)
    refused(1, rstar.Node, "[[", 1, path(3), new=True)
    refused(3, rstar.Node, TREE, 9, path(3), new=True)
    assert refused(9, rstar.Node, TREE, 1, f"{folder}/no/1.log", new=True).errno == 2
    for _ in range(40):
        nodes[1].line("begin pa")
    assert len(nodes[1].line("help")) > 5
    seen = []
    thread = threading.Thread(target=lambda: seen.append(type(other_thread(nodes[1])).__name__))
    thread.start()
    thread.join()
    assert seen == ["RuntimeError"], seen
    for node in nodes.values():
        node.close()
        node.close()
        refused(26, node.line, "doubt")
    with rstar.Node(TREE, 1, path(1)) as again:
        assert again.line("outcome a1.1") == ["outcome a1.1 committed", "ok"]
    refused(10, rstar.Node, TREE, 2, path(1))
    xid = rstar.xid_of_case(1, 1, "a1.1@2.1.1")
    assert rstar.xid_case(xid) == (1, 1, "a1.1@2.1.1") and rstar.xid_bytes(rstar.xid_text(xid)) == xid
    refused(36, rstar.xid_bytes, "x")
    report, ending = rstar.audit(TREE + "---\nlog 1\nlog 2\n")
    assert ending == 0 and report == "mismatches 0\n", (report, ending)
    assert rstar.log(TREE + "---\nlog 1\nlog 2\n")[1] == 0 and rstar.audit("x")[1] == 1
    print("the module does as it says")


def other_thread(node):
    try:
        return node.line("doubt")
    except RuntimeError as why:
        return why


main(sys.argv[1])
