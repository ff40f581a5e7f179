; Two classes whose initializers use each other (Left.j, Right.j), and two threads: main uses Left first, the other one Right.
; Prints 2 and 1 where main runs both initializers, 1 and 2 where the other thread does. Where each has begun one, each waits for
; the other's class: they are stuck (JVMS 5.5).
.class public race
.super java/lang/Thread

.method public <init>()V
.limit stack 1
.limit locals 1
    aload_0
    invokespecial java/lang/Thread/<init>()V
    return
.end method

.method public run()V
.limit stack 1
.limit locals 1
    getstatic Right/y I
    pop
    return
.end method

.method public static main()V
.limit stack 2
.limit locals 1
    new race
    dup
    invokespecial race/<init>()V
    astore_0
    aload_0
    invokevirtual race/start()V
    getstatic Left/x I
    pop
    aload_0
    invokevirtual race/join()V
    getstatic Left/x I
    invokestatic vm/Sys/print(I)V
    getstatic Right/y I
    invokestatic vm/Sys/print(I)V
    return
.end method
