#!/usr/bin/env python3
"""Writes a Jasmin text of one straight-line main: N times `iconst_1`, `iadd`, then a print. For measuring turns a second."""
import sys

pairs = int(sys.argv[1]) if len(sys.argv) > 1 else 29_999
print(".class public Long\n.super java/lang/Object\n.method public static main()V\n.limit stack 2\n.limit locals 0\niconst_0")
print("iconst_1\niadd\n" * pairs, end="")
print("invokestatic vm/Sys/print(I)V\nreturn\n.end method")
