; Two threads work for ever, each with two locks and in its own order of them, and make an object each time. There is one way to
; come to rest: each holds what the other one waits for.
.class public deadlock
.super java/lang/Thread

.field static one Ljava/lang/Object;
.field static other Ljava/lang/Object;

.method public <init>()V
.limit stack 1
.limit locals 1
    aload_0
    invokespecial java/lang/Thread/<init>()V
    return
.end method

; locks the first and then the second, and gives both back, again and again
.method static work(Ljava/lang/Object;Ljava/lang/Object;)V
.limit stack 1
.limit locals 2
Again:
    aload_0
    monitorenter
    aload_1
    monitorenter
    new java/lang/Object
    pop
    aload_1
    monitorexit
    aload_0
    monitorexit
    goto Again
.end method

.method public run()V
.limit stack 2
.limit locals 1
    getstatic deadlock/other Ljava/lang/Object;
    getstatic deadlock/one Ljava/lang/Object;
    invokestatic deadlock/work(Ljava/lang/Object;Ljava/lang/Object;)V
    return
.end method

.method public static main()V
.limit stack 2
.limit locals 0
    new java/lang/Object
    putstatic deadlock/one Ljava/lang/Object;
    new java/lang/Object
    putstatic deadlock/other Ljava/lang/Object;
    new deadlock
    dup
    invokespecial deadlock/<init>()V
    invokevirtual deadlock/start()V
    getstatic deadlock/one Ljava/lang/Object;
    getstatic deadlock/other Ljava/lang/Object;
    invokestatic deadlock/work(Ljava/lang/Object;Ljava/lang/Object;)V
    return
.end method
