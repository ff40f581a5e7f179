; A class of race.j: its y is one more than Left's x.
.class Right
.super java/lang/Object
.field static y I
.method static <clinit>()V
.limit stack 2
.limit locals 0
    getstatic Left/x I
    iconst_1
    iadd
    putstatic Right/y I
    return
.end method
