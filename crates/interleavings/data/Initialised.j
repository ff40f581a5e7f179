; Both threads use the class Failing, whose initializer throws, below that of its superclass Above, which doesn't.
.class public Initialised
.super java/lang/Thread

.method public static main()V
.limit stack 1
.limit locals 0
    new Initialised
    invokevirtual Initialised/start()V
Top:
    getstatic Failing/number I
Thrown:
    pop
    goto Top
.catch all from Top to Thrown using Thrown
.end method

.method public run()V
.limit stack 1
.limit locals 1
Top:
    getstatic Above/number I
    pop
    getstatic Failing/number I
Thrown:
    pop
    goto Top
.catch all from Top to Thrown using Thrown
.end method
