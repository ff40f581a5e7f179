.class public Failing
.super Above
.field static number I

.method static <clinit>()V
.limit stack 1
.limit locals 0
    aconst_null
    athrow
.end method
