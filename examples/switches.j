; Both switches. `days` is a tableswitch: the days of a month, told by its number; `value` a lookupswitch: what a Roman
; digit is worth. Prints 28 (February), 0 (no month) and 1000 (M, whose code is 77).
.class public Switches
.super java/lang/Object

.method static days(I)I
.limit stack 1
.limit locals 1
iload_0
tableswitch 1
Long
February
Long
Short
Long
Short
Long
Long
Short
Long
Short
Long
default : None
Long:
bipush 31
ireturn
Short:
bipush 30
ireturn
February:
bipush 28
ireturn
None:
iconst_0
ireturn
.end method

.method static value(I)I
.limit stack 1
.limit locals 1
iload_0
lookupswitch
67 : C
68 : D
73 : I
76 : L
77 : M
86 : V
88 : X
default : None
I:
iconst_1
ireturn
V:
iconst_5
ireturn
X:
bipush 10
ireturn
L:
bipush 50
ireturn
C:
bipush 100
ireturn
D:
sipush 500
ireturn
M:
sipush 1000
ireturn
None:
iconst_0
ireturn
.end method

.method public static main()V
.limit stack 1
.limit locals 0
iconst_2
invokestatic Switches/days(I)I
invokestatic vm/Sys/print(I)V
bipush 13
invokestatic Switches/days(I)I
invokestatic vm/Sys/print(I)V
bipush 77
invokestatic Switches/value(I)I
invokestatic vm/Sys/print(I)V
return
.end method
