; A class of race.j: its x is one more than Right's y.
.class Left
.super java/lang/Object
.field static x I
.method static <clinit>()V
.limit stack 2
.limit locals 0
    getstatic Right/y I
    iconst_1
    iadd
    putstatic Left/x I
    return
.end method
