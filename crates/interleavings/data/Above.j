.class public Above
.super java/lang/Object
.field static number I

.method static <clinit>()V
.limit stack 1
.limit locals 0
    iconst_5
    putstatic Above/number I
    return
.end method
