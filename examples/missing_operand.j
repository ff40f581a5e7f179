; One int where `iadd` wants two: fault F1 in the second turn.
.class public Missing
.super java/lang/Object
.method public static main()V
.limit stack 2
.limit locals 0
iconst_1
iadd
.end method
