; Both threads enter one monitor, and throw while they hold it: thread 0 by monitorenter, thread 1 by a synchronized method.
.class public Monitor
.super java/lang/Thread
.field static lock LMonitor;

.method public static main()V
.limit stack 2
.limit locals 0
    new Monitor
    dup
    putstatic Monitor/lock LMonitor;
    invokevirtual Monitor/start()V
Top:
    getstatic Monitor/lock LMonitor;
    monitorenter
Held:
    aconst_null
    athrow
Thrown:
    pop
    getstatic Monitor/lock LMonitor;
    monitorexit
    goto Top
.catch all from Held to Thrown using Thrown
.end method

.method public run()V
.limit stack 1
.limit locals 1
Top:
    aload_0
    invokevirtual Monitor/fail()V
Thrown:
    pop
    goto Top
.catch all from Top to Thrown using Thrown
.end method

.method public synchronized fail()V
.limit stack 1
.limit locals 1
    aconst_null
    athrow
.end method
