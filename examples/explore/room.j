; A list of three objects, or of as many as there is room for: where a cell is missing, the OutOfMemoryError is caught. Prints how
; many there are: 3 where no cell is ever missing, on some heap 0, 1 or 2.
.class public room
.super java/lang/Object

.field next Lroom;

.method public static main()V
.limit stack 3
.limit locals 2
.catch java/lang/OutOfMemoryError from Again to Made using Full
    iconst_0
    istore_0
    aconst_null
    astore_1
Again:
    new room
Made:
    dup
    aload_1
    putfield room/next Lroom;
    astore_1
    iinc 0 1
    iload_0
    iconst_3
    if_icmplt Again
    goto Print
Full:
    pop
Print:
    iload_0
    invokestatic vm/Sys/print(I)V
    return
.end method
